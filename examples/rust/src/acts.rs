//! What a kernel does for its processes: it ends them, takes pages back, and sees what changed.

use crate::core::Core;
use crate::raw;
use crate::words::{Cause, Failure, Page, Pid, Reply, Vaddr, pid_of};
use ::core::iter::FusedIterator;
use ::core::ops::Deref;

/// Up to 64 processes, in the order in which they are listed.
///
/// Example: [families](crate#families).
#[derive(Clone, Copy, Debug)]
pub struct Processes {
    pids: [Pid; 64],
    count: usize,
}

impl From<&raw::Processes> for Processes {
    fn from(list: &raw::Processes) -> Processes {
        let mut pids = [Pid::ROOT; 64];
        for (pid, number) in pids.iter_mut().zip(list.pids) {
            *pid = pid_of(number);
        }
        Processes {
            pids,
            count: list.count as usize,
        }
    }
}

impl Deref for Processes {
    type Target = [Pid];

    fn deref(&self) -> &[Pid] {
        &self.pids[..self.count]
    }
}

/// A pending offer of a process.
///
/// Example: [sharing](crate#sharing).
#[derive(Clone, Copy, Debug, PartialEq, Eq, Hash)]
pub struct Offer {
    /// The offerer's page.
    pub page: Page,
    /// The process to which it is offered.
    pub target: Pid,
    /// Whether the target may write to the page.
    pub write: bool,
}

/// A page of a process.
///
/// Example: [sharing](crate#sharing).
#[derive(Clone, Copy, Debug, PartialEq, Eq, Hash)]
pub struct Holder {
    /// The process.
    pub pid: Pid,
    /// Its page.
    pub page: Page,
}

/// The pending offers of a process in the order of pages and targets, as [`Core::offers`] returns them.
///
/// Example: [sharing](crate#sharing).
#[derive(Clone, Debug)]
pub struct Offers<'a> {
    core: &'a Core<'a>,
    pid: Pid,
    next: Option<(Page, u32)>,
}

impl Iterator for Offers<'_> {
    type Item = Offer;

    fn next(&mut self) -> Option<Offer> {
        let (page, target) = self.next?;
        let found = self.core.next_offer(self.pid, page, target);
        self.next = found.map(|offer| (offer.page, u32::from(offer.target.number()) + 1));
        found
    }
}

impl FusedIterator for Offers<'_> {}

/// The dirty pages of a process in ascending order, as [`Core::dirty_pages`] returns them.
///
/// Example: [memory of a process](crate#memory-of-a-process).
#[derive(Clone, Debug)]
pub struct DirtyPages<'a> {
    core: &'a Core<'a>,
    pid: Pid,
    next: Option<u32>,
}

impl Iterator for DirtyPages<'_> {
    type Item = Page;

    fn next(&mut self) -> Option<Page> {
        let found = self.core.next_dirty(self.pid, Page(self.next?));
        self.next = found.and_then(|page| page.0.checked_add(1));
        found
    }
}

impl FusedIterator for DirtyPages<'_> {}

/// How many pages are taken back in one call, at most.
const CHUNK: usize = 32;

/// Returns the cause of a reply that is a refusal.
fn cause_of(told: &raw::Reply) -> Option<Cause> {
    match Reply::from(told).into_result() {
        Err(Failure::Refused(cause)) => Some(cause),
        _ => None,
    }
}

impl Core<'_> {
    /// Returns a process's children in order of their numbers; none if it is not live.
    ///
    /// Example: [families](crate#families).
    #[must_use]
    pub fn children(&self, pid: Pid) -> Processes {
        let mut found = raw::Processes::default();
        // SAFETY: the handle was booted; as a `Core` is not `Sync`, no other call has it; both lie apart.
        unsafe { raw::tower_children(self.handle(), pid.number().into(), &raw mut found) };
        (&found).into()
    }

    /// Returns a process's first pending offer from a page and a target on, in the order of pages, and of targets for
    /// one page. `target` may be any number: past 63 it leads to the next page.
    ///
    /// Example: [sharing](crate#sharing).
    #[must_use]
    pub fn next_offer(&self, pid: Pid, page: Page, target: u32) -> Option<Offer> {
        let mut offer = raw::Offer::default();
        // SAFETY: as for `children`.
        let is_there = unsafe {
            raw::tower_next_offer(
                self.handle(),
                pid.number().into(),
                page.0,
                target,
                &raw mut offer,
            )
        };
        is_there.then(|| Offer {
            page: Page(offer.page),
            target: pid_of(offer.target),
            write: offer.write,
        })
    }

    /// Returns a process's pending offers, in the order of pages, and of targets for one page.
    ///
    /// Example: [sharing](crate#sharing).
    #[must_use]
    pub fn offers(&self, pid: Pid) -> Offers<'_> {
        Offers {
            core: self,
            pid,
            next: Some((Page(0), 0)),
        }
    }

    /// Returns the lowest page from `from` on at which process `holder` also has a page of a process: both share it. The
    /// page itself is none of them.
    ///
    /// Example: [sharing](crate#sharing).
    #[must_use]
    pub fn next_holder(&self, pid: Pid, page: Page, holder: Pid, from: Page) -> Option<Page> {
        let mut found = 0;
        // SAFETY: as for `children`.
        let is_there = unsafe {
            raw::tower_next_holder(
                self.handle(),
                pid.number().into(),
                page.0,
                holder.number().into(),
                from.0,
                &raw mut found,
            )
        };
        is_there.then_some(Page(found))
    }

    /// Returns the lowest page from `from` on that a process has mapped and that is dirty.
    ///
    /// Example: [memory of a process](crate#memory-of-a-process).
    #[must_use]
    pub fn next_dirty(&self, pid: Pid, from: Page) -> Option<Page> {
        let mut page = 0;
        // SAFETY: as for `children`.
        let is_there = unsafe {
            raw::tower_next_dirty(self.handle(), pid.number().into(), from.0, &raw mut page)
        };
        is_there.then_some(Page(page))
    }

    /// Returns the pages that a process has mapped and that are dirty, in ascending order.
    ///
    /// Example: [memory of a process](crate#memory-of-a-process).
    #[must_use]
    pub fn dirty_pages(&self, pid: Pid) -> DirtyPages<'_> {
        DirtyPages {
            core: self,
            pid,
            next: Some(0),
        }
    }

    /// Copies bytes of a process's memory out as they are, up to the first that is not mapped, and returns how many. The
    /// rest of `bytes` is unchanged. No page is mapped, and no flag is set.
    ///
    /// Example: [memory of a process](crate#memory-of-a-process).
    #[must_use = "fewer bytes may have been copied"]
    pub fn peek(&self, pid: Pid, addr: Vaddr, bytes: &mut [u8]) -> usize {
        let mut moved = 0;
        // SAFETY: as for `children`; the pointer and the length are the slice's.
        unsafe {
            raw::tower_peek(
                self.handle(),
                pid.number().into(),
                addr.0,
                bytes.as_mut_ptr(),
                bytes.len(),
                &raw mut moved,
            )
        };
        moved
    }

    /// Puts bytes into a process's memory from an address on, whatever right the process has there, and leaves each page
    /// with the right that `write` says: all of them, or none. A kernel whose processors cache translations invalidates
    /// those of the pages. If the process has one page at two of the addresses, the byte that comes last stays.
    ///
    /// Example: [memory of a process](crate#memory-of-a-process).
    ///
    /// # Errors
    ///
    /// The first of `NoProcess`, `BadPage` if a page is not of the user range, `Rights` if a page is mapped and the process
    /// may never write to it, and `Quota` if it has no room for the pages that are not mapped; then nothing changes.
    pub fn load_bytes(
        &mut self,
        pid: Pid,
        addr: Vaddr,
        bytes: &[u8],
        write: bool,
    ) -> Result<(), Cause> {
        let mut told = raw::Reply::default();
        // SAFETY: as for `clean`; the pointer and the length are the slice's.
        unsafe {
            raw::tower_load_bytes(
                self.handle_mut(),
                pid.number().into(),
                addr.0,
                bytes.as_ptr(),
                bytes.len(),
                write,
                &raw mut told,
            )
        };
        cause_of(&told).map_or(Ok(()), Err)
    }

    /// Clears accessed and dirty of a page, and returns whether it was dirty; None if the process has not mapped it. It
    /// is no event. A kernel whose processors cache translations invalidates the page's.
    ///
    /// Example: [memory of a process](crate#memory-of-a-process).
    #[must_use = "the page may not be mapped"]
    pub fn clean(&mut self, pid: Pid, page: Page) -> Option<bool> {
        let mut dirty = false;
        // SAFETY: the handle was booted and is borrowed exclusively; both lie apart.
        let is_mapped = unsafe {
            raw::tower_clean(
                self.handle_mut(),
                pid.number().into(),
                page.0,
                &raw mut dirty,
            )
        };
        is_mapped.then_some(dirty)
    }

    /// Ends a process with all that descend from it, children first, and returns them in that order: it is the run of
    /// their Exits. A kernel whose processors cache translations invalidates all of each of them. The next spawn or fork
    /// may give one of their numbers to another process.
    ///
    /// Example: [families](crate#families).
    ///
    /// # Errors
    ///
    /// `RootExit` for process 0, and `NoProcess` for a process that is not live; then nothing changes.
    pub fn end(&mut self, pid: Pid) -> Result<Processes, Cause> {
        let (mut exited, mut told) = (raw::Processes::default(), raw::Reply::default());
        // SAFETY: as for `clean`, and `told` lies apart from the others.
        unsafe {
            raw::tower_end(
                self.handle_mut(),
                pid.number().into(),
                &raw mut exited,
                &raw mut told,
            )
        };
        cause_of(&told).map_or_else(|| Ok((&exited).into()), Err)
    }

    /// Takes a page of a process back from all others that share it: it is the run of the Unmaps of their pages. `lost`
    /// gets these pages, in that order, and the result is how many there are. If it is less than the number of places,
    /// the process has the page alone. Otherwise others may still have it. Those that lost it may access the same
    /// addresses again, which maps pages of zeros of their own. A kernel whose processors cache translations
    /// invalidates those of these pages.
    ///
    /// Example: [sharing](crate#sharing).
    ///
    /// # Errors
    ///
    /// The cause for which an Info of the page is refused; then nothing changes.
    pub fn take_back(&mut self, pid: Pid, page: Page, lost: &mut [Holder]) -> Result<usize, Cause> {
        if lost.is_empty() {
            return self.take_some(pid, page, lost);
        }
        let mut taken = 0;
        for part in lost.chunks_mut(CHUNK) {
            let here = self.take_some(pid, page, part)?;
            taken += here;
            if here < part.len() {
                break;
            }
        }
        Ok(taken)
    }

    /// Takes a page back from at most `CHUNK` others.
    fn take_some(&mut self, pid: Pid, page: Page, lost: &mut [Holder]) -> Result<usize, Cause> {
        let (mut part, mut count) = ([raw::Holder::default(); CHUNK], 0);
        let mut told = raw::Reply::default();
        // SAFETY: as for `clean`, and the length is within the array.
        unsafe {
            raw::tower_take_back(
                self.handle_mut(),
                pid.number().into(),
                page.0,
                part.as_mut_ptr(),
                lost.len(),
                &raw mut count,
                &raw mut told,
            )
        };
        if let Some(cause) = cause_of(&told) {
            return Err(cause);
        }
        for (place, raw) in lost.iter_mut().zip(&part[..count]) {
            *place = Holder {
                pid: pid_of(raw.pid),
                page: Page(raw.page),
            };
        }
        Ok(count)
    }
}
