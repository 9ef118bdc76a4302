//! Each call as a method, which returns the call's result or why it was not carried out. A call that can end cached
//! translations returns these.
//!
//! The event's CPU is 0: it has no effect.

use crate::core::Core;
use crate::words::{Call, Ended, Event, Failure, Page, Pid, Reply, Size, Vaddr};

/// The state of a page of a process.
///
/// Example: [calls](crate#calls).
#[derive(Clone, Copy, Debug, PartialEq, Eq, Hash)]
#[allow(clippy::struct_excessive_bools)] // (four flags of a page, as a reply has them)
pub struct Info {
    /// The process may write to it now.
    pub write: bool,
    /// The process may make it writable.
    pub may: bool,
    /// An access has completed through it.
    pub accessed: bool,
    /// A store has completed through it.
    pub dirty: bool,
    /// How many slots share it, this one among them.
    pub holders: u32,
}

/// What a process may use, in frames.
///
/// Example: [calls](crate#calls).
#[derive(Clone, Copy, Debug, PartialEq, Eq, Hash)]
pub struct Usage {
    /// Its quota.
    pub quota: u32,
    /// What it is charged for.
    pub used: u32,
    /// The sum of its children's quotas.
    pub given: u32,
}

/// Panics at a reply that the library's contracts exclude for a call.
fn untold(told: Reply) -> ! {
    unreachable!("a call was told {told:?}")
}

impl Core<'_> {
    fn call(&mut self, pid: Pid, call: Call) -> Result<Reply, Failure> {
        self.step(&Event { cpu: 0, pid, call }).into_result()
    }

    fn done(&mut self, pid: Pid, call: Call) -> Result<(), Failure> {
        match self.call(pid, call)? {
            Reply::Done => Ok(()),
            told => untold(told),
        }
    }

    /// Carries out a call that returns nothing to its process, and returns what it ended.
    fn ending(&mut self, pid: Pid, call: Call) -> Result<Ended, Failure> {
        let (reply, ended) = self.step_ending(&Event { cpu: 0, pid, call });
        match reply.into_result()? {
            Reply::Done => Ok(ended),
            told => untold(told),
        }
    }

    fn child(&mut self, pid: Pid, call: Call) -> Result<Pid, Failure> {
        match self.call(pid, call)? {
            Reply::Child(child) => Ok(child),
            told => untold(told),
        }
    }

    /// Reads the bytes at an address, zero-extended. A page that is not mapped is mapped first, and the quota pays for it.
    ///
    /// Example: [calls](crate#calls).
    ///
    /// # Errors
    ///
    /// The first that applies: the [`Cause`](crate::Cause) `NoProcess`, a fault with code 4 if a byte lies outside the
    /// user range, and the cause `Quota`; nothing changed then.
    pub fn load(&mut self, pid: Pid, addr: Vaddr, size: Size) -> Result<u32, Failure> {
        match self.call(pid, Call::Load { addr, size })? {
            Reply::Value(value) => Ok(value),
            told => untold(told),
        }
    }

    /// Writes the low bytes of a value at an address. A page that is not mapped is mapped first. One that gets its first
    /// store gets a frame, and the translation of its zeros ends. The quota pays for both.
    ///
    /// Example: [calls](crate#calls).
    ///
    /// # Errors
    ///
    /// The first that applies: the [`Cause`](crate::Cause) `NoProcess`, a fault with code 6 if a byte lies outside the
    /// user range, one with code 7 if a byte lies in a page that is mapped without write, and the cause `Quota`; nothing
    /// changed then.
    pub fn store(
        &mut self,
        pid: Pid,
        addr: Vaddr,
        size: Size,
        value: u32,
    ) -> Result<Ended, Failure> {
        self.ending(pid, Call::Store { addr, size, value })
    }

    /// Maps a page of zeros, with the right to write if `write`.
    ///
    /// Example: [calls](crate#calls).
    ///
    /// # Errors
    ///
    /// The first [`Cause`](crate::Cause) that applies, of `NoProcess`, `BadPage`, `Mapped` and `Quota`; nothing changed
    /// then.
    pub fn map(&mut self, pid: Pid, page: Page, write: bool) -> Result<(), Failure> {
        self.done(pid, Call::Map { page, write })
    }

    /// Removes a page from the process's space, and ends its translation.
    ///
    /// Example: [translations](crate#translations).
    ///
    /// # Errors
    ///
    /// The first [`Cause`](crate::Cause) that applies, of `NoProcess`, `BadPage` and `NotMapped`; nothing changed then.
    pub fn unmap(&mut self, pid: Pid, page: Page) -> Result<Ended, Failure> {
        self.ending(pid, Call::Unmap { page })
    }

    /// Sets whether the process may write to a page. Without the right, the page's translation ends.
    ///
    /// Example: [translations](crate#translations).
    ///
    /// # Errors
    ///
    /// The first [`Cause`](crate::Cause) that applies, of `NoProcess`, `BadPage`, `NotMapped` and `Rights`; nothing
    /// changed then.
    pub fn protect(&mut self, pid: Pid, page: Page, write: bool) -> Result<Ended, Failure> {
        self.ending(pid, Call::Protect { page, write })
    }

    /// Returns a page's flags, and how many slots share it.
    ///
    /// Example: [calls](crate#calls).
    ///
    /// # Errors
    ///
    /// The first [`Cause`](crate::Cause) that applies, of `NoProcess`, `BadPage` and `NotMapped`; nothing changed then.
    pub fn info(&mut self, pid: Pid, page: Page) -> Result<Info, Failure> {
        match self.call(pid, Call::Info { page })? {
            Reply::Info {
                write,
                may,
                accessed,
                dirty,
                holders,
            } => Ok(Info {
                write,
                may,
                accessed,
                dirty,
                holders,
            }),
            told => untold(told),
        }
    }

    /// Offers a page to another process, with the right to write or without it.
    ///
    /// Example: [sharing](crate#sharing).
    ///
    /// # Errors
    ///
    /// The first [`Cause`](crate::Cause) that applies, of `NoProcess`, `BadPage`, `NotMapped`, `SelfOffer`, `NoTarget`,
    /// `Rights`, `OfferPending` and `TooManyOffers`; nothing changed then.
    pub fn offer(&mut self, pid: Pid, page: Page, target: Pid, write: bool) -> Result<(), Failure> {
        self.done(
            pid,
            Call::Offer {
                page,
                target,
                write,
            },
        )
    }

    /// Withdraws an offer.
    ///
    /// Example: [sharing](crate#sharing).
    ///
    /// # Errors
    ///
    /// The first [`Cause`](crate::Cause) that applies, of `NoProcess`, `BadPage` and `NoOffer`; nothing changed then.
    pub fn withdraw(&mut self, pid: Pid, page: Page, target: Pid) -> Result<(), Failure> {
        self.done(pid, Call::Withdraw { page, target })
    }

    /// Maps a page that another process offers at `page`. If the page is lazy, it gets a frame, and the giver's translation
    /// ends.
    ///
    /// Example: [sharing](crate#sharing).
    ///
    /// # Errors
    ///
    /// The first [`Cause`](crate::Cause) that applies, of `NoProcess`, `BadPage` (of `page`), `NoOffer`, `Mapped` and
    /// `Quota`; nothing changed then.
    pub fn accept(
        &mut self,
        pid: Pid,
        giver: Pid,
        giver_page: Page,
        page: Page,
    ) -> Result<Ended, Failure> {
        self.ending(
            pid,
            Call::Accept {
                giver,
                giver_page,
                page,
            },
        )
    }

    /// Makes a child with that quota, in frames, and an empty space.
    ///
    /// Example: [sharing](crate#sharing).
    ///
    /// # Errors
    ///
    /// The first [`Cause`](crate::Cause) that applies, of `NoProcess`, `BadQuota`, `TableFull` and `Quota`; nothing
    /// changed then.
    pub fn spawn(&mut self, pid: Pid, quota: u32) -> Result<Pid, Failure> {
        self.child(pid, Call::Spawn { quota })
    }

    /// Makes a child with that quota, in frames, and a copy of each of the process's pages.
    ///
    /// Example: [families](crate#families).
    ///
    /// # Errors
    ///
    /// The first [`Cause`](crate::Cause) that applies, of `NoProcess`, `BadQuota`, `TableFull`, `TooSmall` and `Quota`;
    /// nothing changed then.
    pub fn fork(&mut self, pid: Pid, quota: u32) -> Result<Pid, Failure> {
        self.child(pid, Call::Fork { quota })
    }

    /// Ends a process, whose quota returns to its parent, and all of its translations. The next spawn or fork may give its
    /// number to another process.
    ///
    /// Example: [families](crate#families).
    ///
    /// # Errors
    ///
    /// The first [`Cause`](crate::Cause) that applies, of `NoProcess`, `RootExit` and `HasChildren`; nothing changed
    /// then.
    pub fn exit(&mut self, pid: Pid) -> Result<Ended, Failure> {
        self.ending(pid, Call::Exit)
    }

    /// Returns a process's quota, and how much of it is used and given.
    ///
    /// Example: [calls](crate#calls).
    ///
    /// # Errors
    ///
    /// The only cause is `NoProcess`; nothing changed then.
    pub fn quota(&mut self, pid: Pid) -> Result<Usage, Failure> {
        match self.call(pid, Call::Quota)? {
            Reply::Quota { quota, used, given } => Ok(Usage { quota, used, given }),
            told => untold(told),
        }
    }
}
