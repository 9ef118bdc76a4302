//! Blocks of the program's global allocator.
//!
//! A block is freed without its size. Each therefore has its size in the 16 bytes before it.

#![allow(clippy::cast_ptr_alignment)] // (a block lies at a multiple of 16, and its size at its beginning)

extern crate alloc;

use ::core::alloc::Layout;
use ::core::ptr::NonNull;
use alloc::alloc::{alloc, dealloc};

/// The bytes for a block's size, which keep the block aligned to 16, the highest alignment requested.
const HEAD: usize = 16;

fn layout_of(size: usize) -> Option<Layout> {
    Layout::from_size_align(size.checked_add(HEAD)?, HEAD).ok()
}

/// Returns a new block of that many bytes; None if the allocator refuses it.
pub fn allocated(size: usize) -> Option<NonNull<u8>> {
    let layout = layout_of(size)?;
    // SAFETY: the layout has at least `HEAD` bytes, of which the first hold the size.
    unsafe {
        let head = NonNull::new(alloc(layout))?;
        head.cast::<usize>().write(size);
        Some(head.add(HEAD))
    }
}

/// Frees a block.
///
/// # Safety
///
/// `allocated` returned it, and it is freed once.
pub unsafe fn free(block: NonNull<u8>) {
    // SAFETY: the block's size lies before it.
    unsafe {
        let head = block.sub(HEAD);
        if let Some(layout) = layout_of(head.cast::<usize>().read()) {
            dealloc(head.as_ptr(), layout);
        }
    }
}
