//! A test of a core that is forgotten, and whose block's memory the global allocator has again.
#![cfg(all(feature = "blocks", feature = "heap"))]

use std::alloc::{GlobalAlloc, Layout, System};
use std::cell::UnsafeCell;
use std::sync::atomic::{AtomicBool, Ordering};
use tower::{Core, block_bytes};

/// Gives its own memory to one request of many bytes at a time, and any other to the system.
#[repr(align(4096))]
struct Heap(UnsafeCell<[u8; 1 << 17]>);

// SAFETY: whoever has the memory has it alone, by `IN_USE`.
unsafe impl Sync for Heap {}

static IN_USE: AtomicBool = AtomicBool::new(false);

#[global_allocator]
static HEAP: Heap = Heap(UnsafeCell::new([0; 1 << 17]));

// SAFETY: the memory is aligned to a page, and has more bytes than any request that gets it.
unsafe impl GlobalAlloc for Heap {
    unsafe fn alloc(&self, layout: Layout) -> *mut u8 {
        let is_its = (1 << 16..=1 << 17).contains(&layout.size());
        if is_its && !IN_USE.swap(true, Ordering::AcqRel) {
            return self.0.get().cast();
        }
        // SAFETY: as for this function.
        unsafe { System.alloc(layout) }
    }

    unsafe fn dealloc(&self, block: *mut u8, layout: Layout) {
        if block == self.0.get().cast() {
            IN_USE.store(false, Ordering::Release);
        } else {
            // SAFETY: as for this function.
            unsafe { System.dealloc(block, layout) }
        }
    }
}

#[repr(align(4096))]
#[derive(Clone, Copy)]
#[allow(dead_code)] // (its bytes are read as a slice's)
struct Page([u8; 4096]);

#[test]
fn a_forgotten_core_takes_no_block_of_the_heap() {
    let mut memory = vec![Page([0; 4096]); block_bytes(16) / 4096];
    assert!(IN_USE.load(Ordering::Acquire), "the block is that memory");
    // SAFETY: a page is its bytes.
    let bytes = unsafe {
        std::slice::from_raw_parts_mut(memory.as_mut_ptr().cast::<u8>(), memory.len() * 4096)
    };
    std::mem::forget(Core::over(16, bytes).unwrap());
    drop(memory);
    assert!(!IN_USE.load(Ordering::Acquire));

    let core = Core::boot(16).unwrap();
    assert!(IN_USE.load(Ordering::Acquire), "its frames lie there now");
    drop(core);
    assert!(!IN_USE.load(Ordering::Acquire), "they are freed");
}
