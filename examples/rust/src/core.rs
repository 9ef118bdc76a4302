//! A booted core: all calls and queries of the library.

use crate::VERSION;
use crate::alone::alone;
use crate::raw;
use crate::words::{
    Access, Container, Ended, Event, FRAME_BYTES, Frame, Page, Pid, Reply, Role, Vaddr, WalkEnd,
};
use ::core::cell::UnsafeCell;
use ::core::error::Error;
use ::core::fmt;
use ::core::marker::PhantomData;
use ::core::ptr::{NonNull, null_mut};

/// Why no core is booted.
///
/// Example: [calls](crate#calls).
#[derive(Clone, Copy, Debug, PartialEq, Eq, Hash)]
pub enum BootFault {
    /// The library's version is not that of the header for which this crate was written.
    OtherVersion {
        /// The library's version, as [`version`] returns it.
        library: u32,
    },
    /// The number of frames is not 16 to 4,096.
    BadSize,
    /// The number of frames of a wide core is not 16 to 1,048,576.
    BadWideSize,
    /// The block is not whole frames at a multiple of 4,096, or is too small for that many frames.
    BadBlock,
    /// Memory ran out.
    NoMemory,
}

impl fmt::Display for BootFault {
    fn fmt(&self, to: &mut fmt::Formatter<'_>) -> fmt::Result {
        match self {
            BootFault::OtherVersion { library } => {
                write!(to, "the library is of version {library}, and not {VERSION}")
            }
            BootFault::BadSize => to.write_str("frames must be 16 to 4096"),
            BootFault::BadWideSize => to.write_str("frames must be 16 to 1048576"),
            BootFault::BadBlock => to.write_str("not a block for that many frames"),
            BootFault::NoMemory => to.write_str("out of memory"),
        }
    }
}

impl Error for BootFault {}

/// The number of places for replies is not that of events.
///
/// Example: [runs](crate#runs).
#[derive(Clone, Copy, Debug, PartialEq, Eq, Hash)]
pub struct UnequalLengths;

impl fmt::Display for UnequalLengths {
    fn fmt(&self, to: &mut fmt::Formatter<'_>) -> fmt::Result {
        to.write_str("there are not as many places for replies as events")
    }
}

impl Error for UnequalLengths {}

/// The library's version: 10,000 for each major version, 100 for each minor one, 1 for each patch.
///
/// Example: [frames and tables](crate#frames-and-tables).
#[must_use]
pub fn version() -> u32 {
    raw::tower_version()
}

/// How many events cross in one call, at most.
const CHUNK: usize = 32;

/// A booted core. A query borrows it shared, but is still a call of the library, which takes the core out of its handle
/// and puts it back. A `Core` is therefore not `Sync`.
///
/// `'block` is how long the block of `Core::over` is borrowed; a core that `boot` or `boot_wide` returns borrows
/// nothing.
///
/// Example: [calls](crate#calls).
pub struct Core<'block> {
    handle: UnsafeCell<raw::Tower>,
    block: PhantomData<&'block mut [u8]>,
}

// SAFETY: `Send` of the handle is proved, in crates/tower_c.
unsafe impl Send for Core<'_> {}

impl<'block> Core<'block> {
    /// Boots a core by a call of the library, which returns its status.
    ///
    /// # Errors
    ///
    /// `OtherVersion` if the linked library's version is not [`VERSION`]. Otherwise those of statuses 1, 2 and 4.
    pub(crate) fn booted(
        bad_size: BootFault,
        block: PhantomData<&'block mut [u8]>,
        call: impl FnOnce(*mut raw::Tower) -> u32,
    ) -> Result<Core<'block>, BootFault> {
        if version() != VERSION {
            return Err(BootFault::OtherVersion { library: version() });
        }
        let mut handle = raw::Tower {
            live: false,
            core: null_mut(),
        };
        match alone(|| call(&raw mut handle)) {
            0 => Ok(Core {
                handle: UnsafeCell::new(handle),
                block,
            }),
            1 => Err(bad_size),
            4 => Err(BootFault::BadBlock),
            _ => Err(BootFault::NoMemory),
        }
    }
}

impl Core<'static> {
    /// Boots a machine of that many frames, 16 to 4,096. It has only process 0, whose quota is all frames but one.
    ///
    /// Example: [calls](crate#calls).
    ///
    /// # Errors
    ///
    /// `OtherVersion` if the linked library's version is not [`VERSION`]. Otherwise `BadSize` if the number of frames
    /// is not 16 to 4,096. Otherwise `NoMemory` if memory ran out.
    pub fn boot(frames: u32) -> Result<Core<'static>, BootFault> {
        // SAFETY: the handle is all zeros, and nothing else has it.
        Core::booted(BootFault::BadSize, PhantomData, |handle| unsafe {
            raw::tower_boot(frames, handle)
        })
    }

    /// Boots a machine as `boot` does, but of 16 to 1,048,576 frames, which are 4 GiB.
    ///
    /// Example: [frames and tables](crate#frames-and-tables).
    ///
    /// # Errors
    ///
    /// As for `boot`, with `BadWideSize` if the number of frames is not 16 to 1,048,576.
    pub fn boot_wide(frames: u32) -> Result<Core<'static>, BootFault> {
        // SAFETY: as for `boot`.
        Core::booted(BootFault::BadWideSize, PhantomData, |handle| unsafe {
            raw::tower_boot_wide(frames, handle)
        })
    }

    /// The core in a handle to which a call of the library gave one.
    #[cfg(feature = "images")]
    pub(crate) fn of_handle(handle: raw::Tower) -> Core<'static> {
        Core {
            handle: UnsafeCell::new(handle),
            block: PhantomData,
        }
    }
}

impl<'block> Core<'block> {
    /// The core that a CPU took into a handle, over the block that it was shared with.
    #[cfg(feature = "threads")]
    pub(crate) fn of_block(handle: raw::Tower) -> Core<'block> {
        Core {
            handle: UnsafeCell::new(handle),
            block: PhantomData,
        }
    }
}

impl Core<'_> {
    /// The handle, for a call.
    pub(crate) fn handle_mut(&mut self) -> *mut raw::Tower {
        self.handle.get_mut()
    }

    /// The handle, for a query.
    pub(crate) fn handle(&self) -> *const raw::Tower {
        self.handle.get()
    }

    /// Carries out one event.
    ///
    /// Example: [calls](crate#calls).
    pub fn step(&mut self, event: &Event) -> Reply {
        let mut reply = raw::Reply::default();
        // SAFETY: the handle was booted and is borrowed alone; all three lie apart.
        unsafe { raw::tower_step(self.handle.get_mut(), &event.into(), &raw mut reply) };
        (&reply).into()
    }

    /// Returns which cached translations an event will end. A kernel whose processors cache what walks gave invalidates
    /// these once the event is carried out. If other events may come in between, `step_ending` reports them with the
    /// event.
    ///
    /// Example: [translations](crate#translations).
    pub fn ends(&self, event: &Event) -> Ended {
        let mut ended = raw::Ended::default();
        // SAFETY: as for `frames`, and the event and `ended` lie apart.
        unsafe { raw::tower_ends(self.handle.get(), &event.into(), &raw mut ended) };
        ended.into()
    }

    /// Returns whether an event may write a frame, if it were the next one; None if there is no such frame. What it frees is
    /// among them. Whoever keeps something by frames, as an emulator keeps translated code, drops what it keeps of those.
    ///
    /// Example: [frames and tables](crate#frames-and-tables).
    #[must_use]
    pub fn may_write(&self, event: &Event, frame: Frame) -> Option<bool> {
        let mut may = false;
        // SAFETY: as for `ends`.
        let is_there = unsafe {
            raw::tower_may_write(self.handle.get(), &event.into(), frame.0, &raw mut may)
        };
        is_there.then_some(may)
    }

    /// Carries out one event, and returns its reply and which cached translations it ended. A kernel whose processors
    /// cache what walks gave invalidates these, on all processors, before the next access or event. Only the reply is
    /// for the process.
    ///
    /// Example: [translations](crate#translations).
    #[must_use = "what was ended is to be invalidated"]
    pub fn step_ending(&mut self, event: &Event) -> (Reply, Ended) {
        let mut reply = raw::Reply::default();
        let mut ended = raw::Ended::default();
        // SAFETY: as for `step`, and `ended` lies apart from the others.
        unsafe {
            raw::tower_step_ending(
                self.handle.get_mut(),
                &event.into(),
                &raw mut reply,
                &raw mut ended,
            )
        };
        ((&reply).into(), ended.into())
    }

    /// Carries out events in order, and writes the reply to each in its place.
    ///
    /// Example: [runs](crate#runs).
    ///
    /// # Errors
    ///
    /// If the number of places for replies is not that of events; then nothing is done.
    pub fn run(&mut self, events: &[Event], replies: &mut [Reply]) -> Result<(), UnequalLengths> {
        if events.len() != replies.len() {
            return Err(UnequalLengths);
        }
        for (events, replies) in events.chunks(CHUNK).zip(replies.chunks_mut(CHUNK)) {
            self.run_chunk(events, replies);
        }
        Ok(())
    }

    /// Carries out events in order up to the first that is refused or faults. Writes the reply to each in its place,
    /// and to that one too; the other places are unchanged. Returns how many were carried out, which is the place of
    /// that one.
    ///
    /// Example: [runs](crate#runs).
    ///
    /// # Errors
    ///
    /// If the number of places for replies is not that of events; then nothing is done.
    pub fn run_until(
        &mut self,
        events: &[Event],
        replies: &mut [Reply],
    ) -> Result<usize, UnequalLengths> {
        if events.len() != replies.len() {
            return Err(UnequalLengths);
        }
        let mut carried = 0;
        for (events, replies) in events.chunks(CHUNK).zip(replies.chunks_mut(CHUNK)) {
            let here = self.run_chunk_until(events, replies);
            carried += here;
            if here < events.len() {
                break;
            }
        }
        Ok(carried)
    }

    /// Runs at most `CHUNK` events as `run_until` does, with as many places for replies.
    fn run_chunk_until(&mut self, events: &[Event], replies: &mut [Reply]) -> usize {
        let mut asked = [raw::Event::default(); CHUNK];
        let mut told = [raw::Reply::default(); CHUNK];
        for (raw, event) in asked.iter_mut().zip(events) {
            *raw = event.into();
        }
        let (count, mut carried) = (events.len(), 0);
        // SAFETY: as for `run_chunk`, and `carried` lies apart from the others.
        unsafe {
            raw::tower_run_until(
                self.handle.get_mut(),
                asked.as_ptr(),
                count,
                told.as_mut_ptr(),
                count,
                &raw mut carried,
            )
        };
        for (reply, raw) in replies.iter_mut().zip(&told).take(carried + 1) {
            *reply = raw.into();
        }
        carried
    }

    /// Runs at most `CHUNK` events as `run` does, with as many places for replies.
    fn run_chunk(&mut self, events: &[Event], replies: &mut [Reply]) {
        let mut asked = [raw::Event::default(); CHUNK];
        let mut told = [raw::Reply::default(); CHUNK];
        for (raw, event) in asked.iter_mut().zip(events) {
            *raw = event.into();
        }
        let count = events.len();
        // SAFETY: as for `step`, and `count` is within both arrays.
        unsafe {
            raw::tower_run(
                self.handle.get_mut(),
                asked.as_ptr(),
                count,
                told.as_mut_ptr(),
                count,
            )
        };
        for (reply, raw) in replies.iter_mut().zip(&told) {
            *reply = raw.into();
        }
    }

    /// Returns how many frames the machine has.
    ///
    /// Example: [frames and tables](crate#frames-and-tables).
    #[must_use]
    pub fn frames(&self) -> u32 {
        // SAFETY: the handle was booted; as a `Core` is not `Sync`, no other call has it.
        unsafe { raw::tower_frames(self.handle.get()) }
    }

    /// Returns the frame of a process's directory; None if the process is not live.
    ///
    /// Example: [frames and tables](crate#frames-and-tables).
    #[must_use]
    pub fn directory(&self, pid: Pid) -> Option<Frame> {
        let mut frame = 0;
        // SAFETY: as for `frames`, and `frame` lies apart.
        let is_there =
            unsafe { raw::tower_directory(self.handle.get(), pid.number().into(), &raw mut frame) };
        is_there.then_some(Frame(frame))
    }

    /// Returns what a process may use, uses and gives; None if it is not live.
    ///
    /// Example: [frames and tables](crate#frames-and-tables).
    #[must_use]
    pub fn container(&self, pid: Pid) -> Option<Container> {
        let mut container = raw::Container::default();
        // SAFETY: as for `directory`.
        let is_there = unsafe {
            raw::tower_container(self.handle.get(), pid.number().into(), &raw mut container)
        };
        is_there.then(|| container.into())
    }

    /// Returns the role of a frame; None if memory has no such frame.
    ///
    /// Example: [frames and tables](crate#frames-and-tables).
    #[must_use]
    pub fn role(&self, frame: Frame) -> Option<Role> {
        let mut role = raw::Role::default();
        // SAFETY: as for `directory`.
        let is_there = unsafe { raw::tower_role(self.handle.get(), frame.0, &raw mut role) };
        is_there.then(|| role.into())
    }

    /// Returns how the processor's walk of a process's tables ends, for an access to a byte; None if the process is not
    /// live.
    ///
    /// Example: [frames and tables](crate#frames-and-tables).
    #[must_use]
    pub fn walk(&self, pid: Pid, addr: Vaddr, access: Access) -> Option<Result<Frame, WalkEnd>> {
        let mut found = raw::Walk::default();
        let write = access == Access::Write;
        // SAFETY: as for `directory`.
        let is_there = unsafe {
            raw::tower_walk(
                self.handle.get(),
                pid.number().into(),
                addr.0,
                write,
                &raw mut found,
            )
        };
        is_there.then(|| found.into())
    }

    /// Copies a frame's bytes out. Returns false if memory has no such frame; then nothing is written.
    ///
    /// Example: [frames and tables](crate#frames-and-tables).
    #[must_use = "there may be no such frame"]
    pub fn copy_frame(&self, frame: Frame, bytes: &mut [u8; FRAME_BYTES]) -> bool {
        // SAFETY: as for `directory`, and the length is the array's.
        unsafe {
            raw::tower_copy_frame(self.handle.get(), frame.0, bytes.as_mut_ptr(), FRAME_BYTES)
        }
    }

    /// Returns where the machine's memory lies, until the core is dropped. Frame f is the 4,096 bytes from place 4,096
    /// f on. It is only for a processor that walks the core's directories, which may write there between two calls as
    /// docs/C-LIBRARY.md says.
    ///
    /// Example: [frames and tables](crate#frames-and-tables).
    ///
    /// # Panics
    ///
    /// Never: a booted core has a memory.
    #[must_use]
    pub fn memory(&self) -> NonNull<[u8]> {
        let mut memory = raw::Memory {
            begins: null_mut(),
            length: 0,
        };
        // SAFETY: as for `directory`.
        unsafe { raw::tower_memory(self.handle.get(), &raw mut memory) };
        let begins = NonNull::new(memory.begins).expect("a booted core has a memory");
        NonNull::slice_from_raw_parts(begins, memory.length)
    }
}

impl fmt::Debug for Core<'_> {
    fn fmt(&self, to: &mut fmt::Formatter<'_>) -> fmt::Result {
        to.debug_struct("Core")
            .field("frames", &self.frames())
            .finish_non_exhaustive()
    }
}

impl Drop for Core<'_> {
    fn drop(&mut self) {
        // SAFETY: as for `step`.
        alone(|| unsafe { raw::tower_free(self.handle.get_mut()) });
    }
}

impl Vaddr {
    /// Returns the page of an address.
    ///
    /// Example: [calls](crate#calls).
    #[must_use]
    pub const fn page(self) -> Page {
        Page(self.0 >> 12)
    }
}
