//! The functions for memory that the libraries import: over a caller's block while a core is booted over it, and
//! otherwise over the program's global allocator.

#[cfg(feature = "blocks")]
use crate::blocks;
#[cfg(feature = "heap")]
use crate::heap;
use ::core::ptr::NonNull;

#[repr(C)]
struct Tried {
    ok: bool,
    block: NonNull<u8>,
}

impl From<Option<NonNull<u8>>> for Tried {
    fn from(block: Option<NonNull<u8>>) -> Tried {
        Tried {
            ok: block.is_some(),
            block: block.unwrap_or(NonNull::dangling()),
        }
    }
}

#[unsafe(no_mangle)]
extern "C" fn rattle_alloc(size: usize, align: usize) -> Tried {
    let _ = align;
    #[cfg(feature = "blocks")]
    if blocks::is_booting() {
        return blocks::allocated(size, align).into();
    }
    #[cfg(feature = "heap")]
    return from_heap(size).into();
    #[cfg(not(feature = "heap"))]
    None.into()
}

#[cfg(feature = "heap")]
fn from_heap(size: usize) -> Option<NonNull<u8>> {
    let block = heap::allocated(size)?;
    #[cfg(feature = "blocks")]
    blocks::end_at(block, size);
    Some(block)
}

/// Returns a larger block with the first bytes of the old one, and frees the old one. The archives of images
/// and for threads import it.
#[cfg(any(feature = "images", feature = "threads"))]
#[unsafe(no_mangle)]
unsafe extern "C" fn rattle_realloc(
    block: NonNull<u8>,
    kept: usize,
    size: usize,
    align: usize,
) -> Tried {
    let tried = rattle_alloc(size, align);
    if tried.ok {
        // SAFETY: the old block has `kept` bytes, the new one at least as many, and they lie apart.
        unsafe {
            block.copy_to_nonoverlapping(tried.block, kept);
            rattle_dealloc(block);
        }
    }
    tried
}

#[unsafe(no_mangle)]
unsafe extern "C" fn rattle_dealloc(block: NonNull<u8>) {
    #[cfg(feature = "blocks")]
    if blocks::frees(block) {
        return;
    }
    // SAFETY: the library frees what `rattle_alloc` returned, which lies in no caller's block.
    #[cfg(feature = "heap")]
    unsafe {
        heap::free(block);
    }
    #[cfg(not(feature = "heap"))]
    let _ = block;
}
