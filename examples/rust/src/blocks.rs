//! Cores over blocks of the caller's.

use crate::core::{BootFault, Core};
use crate::raw;
use ::core::cell::UnsafeCell;
use ::core::marker::PhantomData;
use ::core::ptr::NonNull;

/// How many cores over blocks a program has at a time, at most.
const MOST_BLOCKS: usize = 64;

/// The bytes of a frame, and those that a core keeps for each frame.
const FRAME: usize = 4096;
const BOOK: usize = 16;

/// A block in which some of the library's blocks lie.
#[derive(Clone, Copy)]
struct Region {
    begins: NonNull<u8>,
    length: usize,
    /// The one size whose first request gets the frames.
    frame_bytes: usize,
    /// The bytes from this place on are free.
    free: usize,
    /// How many of the library's blocks lie in it; none if the region is not in use.
    blocks: usize,
    is_frames_out: bool,
}

impl Region {
    const UNUSED: Region = Region::over(NonNull::dangling(), 0, 0);

    const fn over(begins: NonNull<u8>, length: usize, frame_bytes: usize) -> Region {
        Region {
            begins,
            length,
            frame_bytes,
            free: frame_bytes,
            blocks: 0,
            is_frames_out: false,
        }
    }

    /// Whether it is in use and has one of these addresses.
    fn meets(&self, begins: usize, length: usize) -> bool {
        let own = self.begins.addr().get();
        self.blocks > 0 && begins < own + self.length && own < begins + length
    }

    /// The place of a new block. The frames come first; the rest lies behind them, each at its alignment. A block of no
    /// bytes has a place of its own too, so that `frees` finds it.
    fn place_for(&mut self, size: usize, align: usize) -> Option<usize> {
        if size == self.frame_bytes && !self.is_frames_out {
            self.is_frames_out = true;
            return Some(0);
        }
        let place = self.free.next_multiple_of(align);
        let end = place.checked_add(size.max(1))?;
        self.free = if end <= self.length { end } else { return None };
        Some(place)
    }

    fn allocated(&mut self, size: usize, align: usize) -> Option<NonNull<u8>> {
        let place = self.place_for(size, align)?;
        self.blocks += 1;
        // SAFETY: the place lies in the region.
        Some(unsafe { self.begins.add(place) })
    }
}

struct Table {
    regions: [Region; MOST_BLOCKS],
    /// The place of the region of the core that is booted now.
    booting: Option<usize>,
}

impl Table {
    /// Notes a block as the region that is booted, if it may be one. Returns the status of a boot if not: 4 for one that
    /// another core has, 2 if no region is unused.
    fn begin(&mut self, region: Region) -> Result<(), u32> {
        let begins = region.begins.addr().get();
        if self
            .regions
            .iter()
            .any(|it| it.meets(begins, region.length))
        {
            return Err(4);
        }
        let unused = self.regions.iter().position(|it| it.blocks == 0);
        let place = unused.ok_or(2_u32)?;
        self.regions[place] = region;
        self.booting = Some(place);
        Ok(())
    }

    /// Ends each region with one of these bytes.
    fn end_all(&mut self, begins: usize, length: usize) {
        for region in &mut self.regions {
            if region.meets(begins, length) {
                *region = Region::UNUSED;
            }
        }
    }
}

/// The table, which only calls within `alone` use.
struct Blocks(UnsafeCell<Table>);

// SAFETY: one call at a time uses it.
unsafe impl Sync for Blocks {}

static BLOCKS: Blocks = Blocks(UnsafeCell::new(Table {
    regions: [Region::UNUSED; MOST_BLOCKS],
    booting: None,
}));

/// Does something with the table.
fn with_table<T>(act: impl FnOnce(&mut Table) -> T) -> T {
    // SAFETY: every call of the library that allocates or frees is made within `alone`, and so is a boot over a block;
    // nothing that `act` does comes back here.
    act(unsafe { &mut *BLOCKS.0.get() })
}

/// Whether a core is being booted over a block, from which everything is then allocated.
pub fn is_booting() -> bool {
    with_table(|table| table.booting.is_some())
}

/// Returns a new block in that of the core that is being booted; None if there is none, or it is full.
pub fn allocated(size: usize, align: usize) -> Option<NonNull<u8>> {
    with_table(|table| {
        let booting = table.booting?;
        table.regions[booting].allocated(size, align)
    })
}

/// Frees one of the library's blocks if it lies in a region, and returns whether it does.
pub fn frees(block: NonNull<u8>) -> bool {
    with_table(|table| {
        let address = block.addr().get();
        let region = table.regions.iter_mut().find(|it| it.meets(address, 1));
        region.map(|it| it.blocks -= 1).is_some()
    })
}

/// Notes that the global allocator has returned these bytes. If they lie in a region, its block was freed, and the core
/// over it was forgotten before (`mem::forget`). What lies there from now on is the allocator's.
#[cfg(feature = "heap")]
pub fn end_at(block: NonNull<u8>, size: usize) {
    with_table(|table| table.end_all(block.addr().get(), size.max(1)));
}

/// Boots a core over a block, and returns the status.
fn boot_over(frames: u32, handle: *mut raw::Tower, block: &mut [u8]) -> u32 {
    let frame_bytes = frames as usize * FRAME;
    let begins = NonNull::from(&mut *block).cast::<u8>();
    // SAFETY: the handle is all zeros, and nothing else has it.
    let boot = || unsafe { raw::tower_boot_wide(frames, handle) };
    if !(16..=1_048_576).contains(&frames) {
        return boot(); // (which requests nothing)
    }
    if begins.addr().get() % FRAME != 0
        || block.len() % FRAME != 0
        || block.len() < block_bytes(frames)
    {
        return 4;
    }
    let region = Region::over(begins, block.len(), frame_bytes);
    if let Err(status) = with_table(|table| table.begin(region)) {
        return status;
    }
    let status = boot();
    with_table(|table| table.booting = None);
    status
}

/// Returns how many bytes a block needs for that many frames.
///
/// These are 4,096 for each frame, 16 for what the core keeps of each, and those of the core itself, up to the next
/// multiple of 4,096. The tests compare it with what the library requests.
///
/// Example: [`Core::over`].
#[must_use]
pub const fn block_bytes(frames: u32) -> usize {
    let book = frames as usize * BOOK + 19_064 + 64;
    frames as usize * FRAME + book.next_multiple_of(FRAME)
}

impl<'block> Core<'block> {
    /// Boots a machine of 16 to 1,048,576 frames over a block. Frame f is the block's 4,096 bytes from place 4,096 f on;
    /// all that the core keeps lies after the last frame.
    ///
    /// ```
    /// use tower::{Core, Pid, block_bytes};
    ///
    /// #[repr(align(4096))]
    /// struct Block([u8; block_bytes(64)]);
    ///
    /// let mut block = Block([0; block_bytes(64)]);
    /// let core = Core::over(64, &mut block.0)?;
    /// assert_eq!((core.frames(), core.container(Pid::ROOT).unwrap().quota), (64, 63));
    /// drop(core);
    /// block.0[0] = 1; // (it is the caller's again)
    /// # Ok::<(), Box<dyn std::error::Error>>(())
    /// ```
    ///
    /// While the core lives, nothing else uses the block:
    ///
    /// ```compile_fail,E0506
    /// # use tower::{Core, block_bytes};
    /// # #[repr(align(4096))]
    /// # struct Block([u8; block_bytes(64)]);
    /// let mut block = Block([0; block_bytes(64)]);
    /// let core = Core::over(64, &mut block.0)?;
    /// block.0[0] = 1;
    /// drop(core);
    /// # Ok::<(), Box<dyn std::error::Error>>(())
    /// ```
    ///
    /// Nor does it outlive the block:
    ///
    /// ```compile_fail,E0597
    /// # use tower::{Core, block_bytes};
    /// # #[repr(align(4096))]
    /// # struct Block([u8; block_bytes(64)]);
    /// let core = {
    ///     let mut block = Block([0; block_bytes(64)]);
    ///     Core::over(64, &mut block.0)?
    /// };
    /// drop(core);
    /// # Ok::<(), Box<dyn std::error::Error>>(())
    /// ```
    ///
    /// # Errors
    ///
    /// As for `boot_wide`. `BadBlock` if the block does not begin at a multiple of 4,096, is not whole frames, has fewer
    /// than [`block_bytes`] of that many frames, or is in part that of a core that was forgotten (`mem::forget`).
    /// `NoMemory` if 64 cores over blocks are there already.
    pub fn over(frames: u32, block: &'block mut [u8]) -> Result<Core<'block>, BootFault> {
        let borrowed: PhantomData<&'block mut [u8]> = PhantomData;
        Core::booted(BootFault::BadWideSize, borrowed, |handle| {
            boot_over(frames, handle, block)
        })
    }
}

#[cfg(test)]
mod tests {
    use super::{Region, Table};
    use ::core::ptr::NonNull;

    const FRAMES: usize = 16 * 4096;

    #[repr(align(4096))]
    struct Block([u8; FRAMES + 4096]);

    fn region_of(block: &mut Block) -> Region {
        let length = block.0.len();
        Region::over(NonNull::from(&mut block.0).cast(), length, FRAMES)
    }

    #[test]
    fn each_block_lies_in_its_region() {
        let mut block = Block([0; FRAMES + 4096]);
        let mut region = region_of(&mut block);
        let mut last = 0;
        for size in [FRAMES, 4000, 0, 16, 0, 78, 0, 1] {
            if let Some(found) = region.allocated(size, 1) {
                let address = found.addr().get();
                assert!(address != last && region.meets(address, 1), "{size}");
                last = address;
            }
        }
        assert_eq!(region.allocated(0, 1), None);
    }

    #[test]
    fn a_region_ends_where_its_bytes_are_the_allocators() {
        let mut block = Block([0; FRAMES + 4096]);
        let region = region_of(&mut block);
        let begins = region.begins.addr().get();
        let mut table = Table {
            regions: [Region::UNUSED; super::MOST_BLOCKS],
            booting: None,
        };
        assert_eq!(table.begin(region), Ok(()));
        assert!(table.regions[0].allocated(FRAMES, 16).is_some());
        table.end_all(begins - 16, 16);
        table.end_all(begins + FRAMES + 4096, 16);
        assert_eq!(table.regions[0].blocks, 1);
        table.end_all(begins + FRAMES + 4095, 1);
        assert_eq!(table.regions[0].blocks, 0);
        assert_eq!(table.begin(region), Ok(()));
    }
}
