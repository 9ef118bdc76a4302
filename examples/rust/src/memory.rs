//! Copies of a process's memory, in and out, and iteration over its pages.

use crate::core::Core;
use crate::raw;
use crate::words::{Failure, Page, Pid, Reply, Vaddr};
use ::core::error::Error;
use ::core::fmt;
use ::core::iter::FusedIterator;

/// A transfer that stopped before its end.
///
/// Example: [memory of a process](crate#memory-of-a-process).
#[derive(Clone, Copy, Debug, PartialEq, Eq, Hash)]
pub struct Stopped {
    /// How many bytes were copied before it.
    pub count: usize,
    /// Why the access to the next byte was not carried out.
    pub failure: Failure,
}

impl fmt::Display for Stopped {
    fn fmt(&self, to: &mut fmt::Formatter<'_>) -> fmt::Result {
        write!(to, "stopped after {} bytes: {}", self.count, self.failure)
    }
}

impl Error for Stopped {}

/// Returns how a transfer ended.
fn ended(count: usize, stop: &raw::Reply) -> Result<(), Stopped> {
    match Reply::from(stop).into_result() {
        Ok(_) => Ok(()),
        Err(failure) => Err(Stopped { count, failure }),
    }
}

/// A mapped page of a process.
///
/// Example: [memory of a process](crate#memory-of-a-process).
#[derive(Clone, Copy, Debug, PartialEq, Eq, Hash)]
#[allow(clippy::struct_excessive_bools)] // (flags of a page, as the library reports them)
pub struct Mapped {
    /// The page.
    pub page: Page,
    /// The process may write to it now.
    pub write: bool,
    /// The process may make it writable.
    pub may: bool,
    /// An access has completed through it.
    pub accessed: bool,
    /// A store has completed through it.
    pub dirty: bool,
    /// It has no frame of its own yet.
    pub lazy: bool,
    /// How many slots share it, this one among them.
    pub holders: u32,
}

/// The pages of a process in ascending order, as [`Core::pages`] returns them.
///
/// Example: [memory of a process](crate#memory-of-a-process).
#[derive(Clone, Debug)]
pub struct Pages<'a> {
    core: &'a Core<'a>,
    pid: Pid,
    next: Option<u32>,
}

impl Iterator for Pages<'_> {
    type Item = Mapped;

    fn next(&mut self) -> Option<Mapped> {
        let found = self.core.next_page(self.pid, Page(self.next?));
        self.next = found.and_then(|mapped| mapped.page.0.checked_add(1));
        found
    }
}

impl FusedIterator for Pages<'_> {}

impl Core<'_> {
    /// Reads a process's memory from an address on, as copyin does, with the effect of one-byte loads in order. A page
    /// that is not mapped is mapped first, as a load does it, and the quota pays for it; no page gets a frame.
    /// [`Core::peek`] maps nothing.
    ///
    /// Example: [memory of a process](crate#memory-of-a-process).
    ///
    /// # Errors
    ///
    /// If the load of a byte is refused or faults: how many bytes were read before it, and why. The rest of `bytes` is
    /// unchanged.
    pub fn read_bytes(&mut self, pid: Pid, addr: Vaddr, bytes: &mut [u8]) -> Result<(), Stopped> {
        let (mut moved, mut stop) = (0, raw::Reply::default());
        // SAFETY: the handle was booted and is borrowed exclusively; the pointer and the length are the slice's, and a
        // slice's pointer is never null; all lie apart.
        unsafe {
            raw::tower_read(
                self.handle_mut(),
                pid.number().into(),
                addr.0,
                bytes.as_mut_ptr(),
                bytes.len(),
                &raw mut moved,
                &raw mut stop,
            )
        };
        ended(moved, &stop)
    }

    /// Writes a process's memory from an address on, as copyout does, with the effect of one-byte stores in order. It
    /// gives lazy pages frames. A kernel whose processors cache translations then invalidates those of the process's
    /// pages from the first byte's page to that of the last byte copied.
    ///
    /// Example: [memory of a process](crate#memory-of-a-process).
    ///
    /// # Errors
    ///
    /// If the store of a byte is refused or faults: how many bytes were written before it, and why.
    pub fn write_bytes(&mut self, pid: Pid, addr: Vaddr, bytes: &[u8]) -> Result<(), Stopped> {
        let (mut moved, mut stop) = (0, raw::Reply::default());
        // SAFETY: as for `read_bytes`.
        unsafe {
            raw::tower_write(
                self.handle_mut(),
                pid.number().into(),
                addr.0,
                bytes.as_ptr(),
                bytes.len(),
                &raw mut moved,
                &raw mut stop,
            )
        };
        ended(moved, &stop)
    }

    /// Returns the lowest page from `from` on that a process has mapped; None if there is none.
    ///
    /// Example: [memory of a process](crate#memory-of-a-process).
    #[must_use]
    pub fn next_page(&self, pid: Pid, from: Page) -> Option<Mapped> {
        let (mut page, mut found) = (0, raw::Page::default());
        // SAFETY: the handle was booted; as a `Core` is not `Sync`, no other call has it; all lie apart.
        let is_there = unsafe {
            raw::tower_next_page(
                self.handle(),
                pid.number().into(),
                from.0,
                &raw mut page,
                &raw mut found,
            )
        };
        is_there.then_some(Mapped {
            page: Page(page),
            write: found.write,
            may: found.may,
            accessed: found.accessed,
            dirty: found.dirty,
            lazy: found.lazy,
            holders: found.holders,
        })
    }

    /// Returns the pages that a process has mapped, in ascending order; no pages if it is not live.
    ///
    /// Example: [memory of a process](crate#memory-of-a-process).
    #[must_use]
    pub fn pages(&self, pid: Pid) -> Pages<'_> {
        Pages {
            core: self,
            pid,
            next: Some(0),
        }
    }
}
