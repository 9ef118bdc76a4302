//! Events, replies and results of queries, and their numbers.

use crate::raw;
use ::core::error::Error;
use ::core::fmt;

/// The bytes of a frame.
///
/// Example: [frames and tables](crate#frames-and-tables).
pub const FRAME_BYTES: usize = 4096;

/// A virtual address. Its debug output is in hexadecimal, as in docs/MACHINE.md.
///
/// Example: [calls](crate#calls).
#[derive(Clone, Copy, PartialEq, Eq, PartialOrd, Ord, Hash)]
pub struct Vaddr(pub u32);

impl fmt::Debug for Vaddr {
    fn fmt(&self, to: &mut fmt::Formatter<'_>) -> fmt::Result {
        write!(to, "Vaddr({:#x})", self.0)
    }
}

/// A page: an address without its last 12 bits. Its debug output is in hexadecimal, as in docs/MACHINE.md.
///
/// Example: [calls](crate#calls).
#[derive(Clone, Copy, PartialEq, Eq, PartialOrd, Ord, Hash)]
pub struct Page(pub u32);

impl fmt::Debug for Page {
    fn fmt(&self, to: &mut fmt::Formatter<'_>) -> fmt::Result {
        write!(to, "Page({:#x})", self.0)
    }
}

/// A frame of memory.
///
/// Example: [frames and tables](crate#frames-and-tables).
#[derive(Clone, Copy, Debug, PartialEq, Eq, PartialOrd, Ord, Hash)]
pub struct Frame(pub u32);

/// The number of a process, 0 to 63. It has no generation: once a process has ended, the next spawn or fork may give its
/// number to another. A copy that a program keeps then names the other process. `examples/tenants.rs` has each number in
/// one place, and ends the process when that is dropped.
///
/// Example: [calls](crate#calls).
#[derive(Clone, Copy, Debug, PartialEq, Eq, PartialOrd, Ord, Hash)]
pub struct Pid(u8);

impl Pid {
    /// Process 0, which a machine boots with.
    ///
    /// Example: [calls](crate#calls).
    pub const ROOT: Pid = Pid(0);

    /// Returns the process of that number; None from 64 on.
    ///
    /// Example: [calls](crate#calls).
    #[must_use]
    pub const fn new(number: u8) -> Option<Pid> {
        if number < 64 { Some(Pid(number)) } else { None }
    }

    /// Returns the process's number.
    ///
    /// Example: [calls](crate#calls).
    #[must_use]
    pub const fn number(self) -> u8 {
        self.0
    }
}

/// How many bytes an access covers.
///
/// Example: [calls](crate#calls).
#[derive(Clone, Copy, Debug, PartialEq, Eq, PartialOrd, Ord, Hash)]
pub enum Size {
    /// One byte.
    One = 1,
    /// Two bytes.
    Two = 2,
    /// Four bytes.
    Four = 4,
}

/// A call; docs/MACHINE.md says what each does.
///
/// Example: [calls](crate#calls).
#[derive(Clone, Copy, Debug, PartialEq, Eq, Hash)]
pub enum Call {
    /// Reads the bytes at an address. They may lie in two pages.
    Load {
        /// The first byte.
        addr: Vaddr,
        /// How many there are.
        size: Size,
    },
    /// Writes the low bytes of a value at an address. They may lie in two pages.
    Store {
        /// The first byte.
        addr: Vaddr,
        /// How many there are.
        size: Size,
        /// What is written, the lowest byte first.
        value: u32,
    },
    /// Maps a page of zeros.
    Map {
        /// The page, which must not be mapped.
        page: Page,
        /// Whether the process may write to it.
        write: bool,
    },
    /// Removes a page from the process's space.
    Unmap {
        /// The page.
        page: Page,
    },
    /// Sets whether the process may write to a page.
    Protect {
        /// The page.
        page: Page,
        /// The right to write from now on.
        write: bool,
    },
    /// Requests a page's flags and how many slots share it.
    Info {
        /// The page.
        page: Page,
    },
    /// Offers a page to another process.
    Offer {
        /// The page.
        page: Page,
        /// The process that may accept it.
        target: Pid,
        /// The right to write that goes with it.
        write: bool,
    },
    /// Withdraws an offer.
    Withdraw {
        /// The page that was offered.
        page: Page,
        /// The process to which it was offered.
        target: Pid,
    },
    /// Maps a page that another process offers, with the offer's right.
    Accept {
        /// The process that offers it.
        giver: Pid,
        /// The giver's page.
        giver_page: Page,
        /// Where it is to be mapped.
        page: Page,
    },
    /// Makes a child with an empty space.
    Spawn {
        /// The child's quota, in frames.
        quota: u32,
    },
    /// Makes a child with a copy of each of the process's pages.
    Fork {
        /// The child's quota, in frames.
        quota: u32,
    },
    /// Ends the process, whose quota returns to its parent.
    Exit,
    /// Requests the process's quota, and how much of it is used and given.
    Quota,
}

/// A call of a process, from a CPU. The CPU has no effect.
///
/// Example: [calls](crate#calls).
#[derive(Clone, Copy, Debug, PartialEq, Eq, Hash)]
pub struct Event {
    /// The CPU, any number.
    pub cpu: u8,
    /// The process.
    pub pid: Pid,
    /// The call that it makes.
    pub call: Call,
}

/// The reply to a call.
///
/// Example: [calls](crate#calls).
#[derive(Clone, Copy, Debug, PartialEq, Eq, Hash)]
#[must_use = "a call may have been refused"]
pub enum Reply {
    /// It is done.
    Done,
    /// The value that was loaded, zero-extended.
    Value(u32),
    /// The new child.
    Child(Pid),
    /// The state of a page.
    Info {
        /// The process may write to it now.
        write: bool,
        /// The process may make it writable.
        may: bool,
        /// An access has completed through it.
        accessed: bool,
        /// A store has completed through it.
        dirty: bool,
        /// How many slots share it, this one among them.
        holders: u32,
    },
    /// What the process may use, in frames.
    Quota {
        /// Its quota.
        quota: u32,
        /// What it is charged for.
        used: u32,
        /// The sum of its children's quotas.
        given: u32,
    },
    /// A page fault. Nothing changed.
    Fault {
        /// The first byte that the access may not have.
        addr: Vaddr,
        /// The processor's error code.
        code: u8,
    },
    /// A refusal. Nothing changed.
    Refused(Cause),
}

/// Why an event was not carried out. Nothing changed.
///
/// Example: [calls](crate#calls).
#[derive(Clone, Copy, Debug, PartialEq, Eq, Hash)]
pub enum Failure {
    /// A page fault.
    Fault {
        /// The first byte that the access may not have.
        addr: Vaddr,
        /// The processor's error code.
        code: u8,
    },
    /// A refusal of the call.
    Refused(Cause),
}

impl fmt::Display for Failure {
    fn fmt(&self, to: &mut fmt::Formatter<'_>) -> fmt::Result {
        match self {
            Failure::Fault { addr, code } => {
                write!(to, "page fault at {:08x}, code {code}", addr.0)
            }
            Failure::Refused(cause) => write!(to, "refused: {cause}"),
        }
    }
}

impl Error for Failure {}

impl Reply {
    /// Returns the reply of an event that was carried out, or why it was not.
    ///
    /// Example: [calls](crate#calls).
    ///
    /// # Errors
    ///
    /// The fault or the refusal, if the reply is one.
    pub fn into_result(self) -> Result<Reply, Failure> {
        match self {
            Reply::Fault { addr, code } => Err(Failure::Fault { addr, code }),
            Reply::Refused(cause) => Err(Failure::Refused(cause)),
            told => Ok(told),
        }
    }
}

/// Why a call is refused.
///
/// Example: [calls](crate#calls).
#[derive(Clone, Copy, Debug, PartialEq, Eq, PartialOrd, Ord, Hash)]
pub enum Cause {
    /// The process is not live.
    NoProcess = 1,
    /// The page lies outside the user range.
    BadPage = 2,
    /// The page is not mapped.
    NotMapped = 4,
    /// The page is mapped already.
    Mapped = 5,
    /// The quota has no room.
    Quota = 6,
    /// The process may not write to the page.
    Rights = 7,
    /// An offer of a process to itself.
    SelfOffer = 8,
    /// The target is not live.
    NoTarget = 9,
    /// The same offer is pending.
    OfferPending = 10,
    /// 32 offers of the process are pending.
    TooManyOffers = 11,
    /// No such offer is pending.
    NoOffer = 12,
    /// No number is free for a child.
    TableFull = 13,
    /// A quota of 0.
    BadQuota = 14,
    /// The process has children.
    HasChildren = 15,
    /// Process 0 does not exit.
    RootExit = 16,
    /// The quota is less than what the process is charged for.
    TooSmall = 17,
}

impl Cause {
    const ALL: [Cause; 16] = [
        Cause::NoProcess,
        Cause::BadPage,
        Cause::NotMapped,
        Cause::Mapped,
        Cause::Quota,
        Cause::Rights,
        Cause::SelfOffer,
        Cause::NoTarget,
        Cause::OfferPending,
        Cause::TooManyOffers,
        Cause::NoOffer,
        Cause::TableFull,
        Cause::BadQuota,
        Cause::HasChildren,
        Cause::RootExit,
        Cause::TooSmall,
    ];

    /// Returns the cause of that number, as docs/MACHINE.md numbers them; None if there is none.
    ///
    /// Example: [calls](crate#calls).
    #[must_use]
    pub fn numbered(number: u32) -> Option<Cause> {
        Cause::ALL.into_iter().find(|cause| *cause as u32 == number)
    }
}

impl fmt::Display for Cause {
    fn fmt(&self, to: &mut fmt::Formatter<'_>) -> fmt::Result {
        fmt::Debug::fmt(self, to)
    }
}

impl Error for Cause {}

/// The role of a frame.
///
/// Example: [frames and tables](crate#frames-and-tables).
#[derive(Clone, Copy, Debug, PartialEq, Eq, Hash)]
pub enum Role {
    /// Frame 0, which no process has.
    Reserved,
    /// Nothing.
    Free,
    /// A directory.
    Directory {
        /// Whose it is.
        pid: Pid,
    },
    /// A table.
    Table {
        /// Whose it is.
        pid: Pid,
        /// The slot of the directory that leads to it.
        slot: u32,
    },
    /// A page.
    Page {
        /// How many slots hold it.
        count: u32,
    },
}

/// What a process may use, uses and gives to children, in frames.
///
/// Example: [frames and tables](crate#frames-and-tables).
#[derive(Clone, Copy, Debug, PartialEq, Eq, Hash)]
pub struct Container {
    /// The process that gave the quota; process 0 is its own parent.
    pub parent: Pid,
    /// What the process may use and give.
    pub quota: u32,
    /// What it is charged for.
    pub used: u32,
    /// The sum of its children's quotas.
    pub given: u32,
    /// How many children it has.
    pub children: u32,
}

/// The access that a walk is for.
///
/// Example: [frames and tables](crate#frames-and-tables).
#[derive(Clone, Copy, Debug, PartialEq, Eq, Hash)]
pub enum Access {
    /// To read.
    Read,
    /// To write.
    Write,
}

/// How a walk without a frame ends.
///
/// Example: [frames and tables](crate#frames-and-tables).
#[derive(Clone, Copy, Debug, PartialEq, Eq, Hash)]
pub enum WalkEnd {
    /// A page fault.
    Fault {
        /// The processor's error code.
        code: u8,
    },
    /// A word on the way names no frame of memory.
    Outside,
}

impl fmt::Display for WalkEnd {
    fn fmt(&self, to: &mut fmt::Formatter<'_>) -> fmt::Result {
        match self {
            WalkEnd::Fault { code } => write!(to, "page fault, code {code}"),
            WalkEnd::Outside => to.write_str("a word names no frame of memory"),
        }
    }
}

impl Error for WalkEnd {}

/// Which cached translations an event ends: what each processor that caches them has to invalidate before the next access
/// or event. A process doesn't get it. A program in which nothing caches translations drops it by [`Ended::ignore`].
///
/// ```compile_fail
/// #![deny(unused_must_use)]
/// # use tower::{Core, Page, Pid};
/// # let mut core = Core::boot(16).unwrap();
/// core.unmap(Pid::ROOT, Page(0x40000)).unwrap(); // an error: what it ended is dropped
/// ```
///
/// ```
/// #![deny(unused_must_use)]
/// # use tower::{Core, Page, Pid};
/// # let mut core = Core::boot(16).unwrap();
/// core.map(Pid::ROOT, Page(0x40000), true).unwrap();
/// core.unmap(Pid::ROOT, Page(0x40000)).unwrap().ignore();
/// ```
#[must_use = "processors that cache translations have to invalidate these; `ignore` drops them"]
#[derive(Clone, Copy, Debug, PartialEq, Eq, Hash)]
pub enum Ended {
    /// None.
    Nothing,
    /// That of one page of a process.
    Page {
        /// Whose it is.
        pid: Pid,
        /// The page.
        page: Page,
    },
    /// Those of two pages of a process.
    Pages {
        /// Whose they are.
        pid: Pid,
        /// One of the pages.
        first: Page,
        /// The other page.
        second: Page,
    },
    /// All of a process, which is gone.
    Space {
        /// Whose they were.
        pid: Pid,
    },
}

impl Ended {
    /// Does nothing: for a program in which no processor, emulator or copy caches translations.
    ///
    /// Example: [translations](crate#translations).
    pub const fn ignore(self) {}
}

/// Returns the value of a number of the library's, whose contracts leave no other number.
pub(crate) fn told<T>(number: Option<T>) -> T {
    number.expect("the library's numbers are those of its headers")
}

pub(crate) fn pid_of(number: u32) -> Pid {
    told(u8::try_from(number).ok().and_then(Pid::new))
}

fn code_of(number: u32) -> u8 {
    told(u8::try_from(number).ok())
}

impl From<&Event> for raw::Event {
    fn from(event: &Event) -> raw::Event {
        let (call, flag, first, second, third) = match event.call {
            Call::Load { addr, size } => (0, size as u8, addr.0, 0, 0),
            Call::Store { addr, size, value } => (1, size as u8, addr.0, value, 0),
            Call::Map { page, write } => (2, u8::from(write), page.0, 0, 0),
            Call::Unmap { page } => (3, 0, page.0, 0, 0),
            Call::Protect { page, write } => (4, u8::from(write), page.0, 0, 0),
            Call::Info { page } => (5, 0, page.0, 0, 0),
            Call::Offer {
                page,
                target,
                write,
            } => (6, u8::from(write), page.0, u32::from(target.0), 0),
            Call::Withdraw { page, target } => (7, 0, page.0, u32::from(target.0), 0),
            Call::Accept {
                giver,
                giver_page,
                page,
            } => (8, 0, giver_page.0, u32::from(giver.0), page.0),
            Call::Spawn { quota } => (9, 0, quota, 0, 0),
            Call::Exit => (10, 0, 0, 0, 0),
            Call::Quota => (11, 0, 0, 0, 0),
            Call::Fork { quota } => (12, 0, quota, 0, 0),
        };
        raw::Event {
            cpu: event.cpu,
            pid: event.pid.0,
            call,
            flag,
            first,
            second,
            third,
        }
    }
}

impl From<&raw::Reply> for Reply {
    fn from(raw: &raw::Reply) -> Reply {
        match raw.kind {
            0 => Reply::Done,
            1 => Reply::Value(raw.first),
            2 => Reply::Child(pid_of(raw.first)),
            3 => Reply::Info {
                write: raw.write,
                may: raw.may,
                accessed: raw.accessed,
                dirty: raw.dirty,
                holders: raw.first,
            },
            4 => Reply::Quota {
                quota: raw.first,
                used: raw.second,
                given: raw.third,
            },
            5 => Reply::Fault {
                addr: Vaddr(raw.first),
                code: code_of(raw.second),
            },
            6 => Reply::Refused(told(Cause::numbered(raw.first))),
            _ => told(None),
        }
    }
}

impl From<raw::Role> for Role {
    fn from(raw: raw::Role) -> Role {
        match raw.kind {
            0 => Role::Reserved,
            1 => Role::Free,
            2 => Role::Directory {
                pid: pid_of(raw.pid),
            },
            3 => Role::Table {
                pid: pid_of(raw.pid),
                slot: raw.slot,
            },
            4 => Role::Page { count: raw.count },
            _ => told(None),
        }
    }
}

impl From<raw::Container> for Container {
    fn from(raw: raw::Container) -> Container {
        let raw::Container {
            parent,
            quota,
            used,
            given,
            children,
        } = raw;
        Container {
            parent: pid_of(parent),
            quota,
            used,
            given,
            children,
        }
    }
}

impl From<raw::Walk> for Result<Frame, WalkEnd> {
    fn from(raw: raw::Walk) -> Result<Frame, WalkEnd> {
        match raw.kind {
            0 => Ok(Frame(raw.frame)),
            1 => Err(WalkEnd::Fault {
                code: code_of(raw.code),
            }),
            2 => Err(WalkEnd::Outside),
            _ => told(None),
        }
    }
}

impl From<raw::Ended> for Ended {
    fn from(raw: raw::Ended) -> Ended {
        let pid = pid_of(raw.pid);
        match raw.kind {
            0 => Ended::Nothing,
            1 => Ended::Page {
                pid,
                page: Page(raw.first),
            },
            2 => Ended::Pages {
                pid,
                first: Page(raw.first),
                second: Page(raw.second),
            },
            3 => Ended::Space { pid },
            _ => told(None),
        }
    }
}
