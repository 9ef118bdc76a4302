//! The core with no standard library and no C library: the four functions that the library imports, over a
//! pool of this file's own, and a start of its own for Linux on x86-64. It ends with status 0 if all goes
//! as expected.
#![no_std]
#![no_main]

use core::arch::{asm, global_asm};
use core::panic::PanicInfo;
use core::ptr::{NonNull, addr_of_mut};
use core::sync::atomic::{AtomicUsize, Ordering};
use tower::{Access, BootFault, Call, Core, Event, Page, Pid, Reply, Size, Vaddr, WalkEnd};

const POOL: usize = 1 << 20;

/// The pool. Its elements have 16 bytes, the highest alignment of a block.
static mut MEMORY: [u128; POOL / 16] = [0; POOL / 16];
static USED: AtomicUsize = AtomicUsize::new(0);
static BLOCKS: AtomicUsize = AtomicUsize::new(0);

#[repr(C)]
struct Tried {
    ok: bool,
    block: *mut u8,
}

/// Returns a block of the pool. Blocks lie in sequence; once all are freed, the pool is empty again.
#[unsafe(no_mangle)]
extern "C" fn rattle_alloc(size: usize, align: usize) -> Tried {
    let at = USED.load(Ordering::Relaxed).next_multiple_of(align);
    match at.checked_add(size) {
        Some(end) if end <= POOL => {
            USED.store(end, Ordering::Relaxed);
            BLOCKS.fetch_add(1, Ordering::Relaxed);
            // SAFETY: `at` lies within the pool, of which each byte is in one block.
            Tried {
                ok: true,
                block: unsafe { addr_of_mut!(MEMORY).cast::<u8>().add(at) },
            }
        }
        _ => Tried {
            ok: false,
            block: NonNull::dangling().as_ptr(),
        },
    }
}

#[unsafe(no_mangle)]
extern "C" fn rattle_dealloc(_block: *mut u8) {
    if BLOCKS.fetch_sub(1, Ordering::Relaxed) == 1 {
        USED.store(0, Ordering::Relaxed);
    }
}

#[unsafe(no_mangle)]
unsafe extern "C" fn memset(to: *mut u8, byte: i32, count: usize) -> *mut u8 {
    // SAFETY: the caller of memset passes `count` bytes.
    unsafe {
        asm!("rep stosb", inout("rdi") to => _, inout("rcx") count => _, in("al") byte as u8, options(nostack));
    }
    to
}

/// Copies bytes, backwards if they would otherwise be overwritten before they are read.
#[unsafe(no_mangle)]
unsafe extern "C" fn memmove(to: *mut u8, from: *const u8, count: usize) -> *mut u8 {
    // SAFETY: the caller of memmove passes `count` bytes on each side.
    unsafe {
        if (to as usize).wrapping_sub(from as usize) >= count {
            asm!("rep movsb", inout("rdi") to => _, inout("rsi") from => _, inout("rcx") count => _, options(nostack));
        } else {
            asm!("std", "rep movsb", "cld",
                 inout("rdi") to.wrapping_add(count).wrapping_sub(1) => _,
                 inout("rsi") from.wrapping_add(count).wrapping_sub(1) => _,
                 inout("rcx") count => _, options(nostack));
        }
    }
    to
}

/// Copies bytes. The compiler's code needs it, in addition to the library's imports.
#[unsafe(no_mangle)]
unsafe extern "C" fn memcpy(to: *mut u8, from: *const u8, count: usize) -> *mut u8 {
    // SAFETY: as for memmove.
    unsafe { memmove(to, from, count) }
}

/// A symbol that the prebuilt `core` names for unwinding. A panic ends this program, so nothing calls it.
#[unsafe(no_mangle)]
extern "C" fn rust_eh_personality() {}

fn leave(status: i32) -> ! {
    // SAFETY: the call ends the process.
    unsafe { asm!("syscall", in("rax") 60, in("rdi") status, options(noreturn)) }
}

#[panic_handler]
fn panicked(_: &PanicInfo<'_>) -> ! {
    leave(101)
}

fn say(text: &str) {
    // SAFETY: write reads the text's own bytes.
    unsafe {
        asm!("syscall", inout("rax") 1_usize => _, in("rdi") 1, in("rsi") text.as_ptr(), in("rdx") text.len(),
             out("rcx") _, out("r11") _, options(nostack));
    }
}

fn tried_out() -> Result<(), BootFault> {
    let mut core = Core::boot(64)?;
    let (page, addr) = (Page(0x40000), Vaddr(0x4000_0000));
    let mut step = |call| {
        core.step(&Event {
            cpu: 0,
            pid: Pid::ROOT,
            call,
        })
    };
    assert!(step(Call::Map { page, write: true }) == Reply::Done);
    assert!(
        step(Call::Store {
            addr,
            size: Size::Four,
            value: 77
        }) == Reply::Done
    );
    assert!(
        step(Call::Load {
            addr,
            size: Size::Two
        }) == Reply::Value(77)
    );
    assert!(matches!(
        core.walk(Pid::ROOT, addr, Access::Write),
        Some(Ok(_))
    ));
    assert!(core.walk(Pid::ROOT, Vaddr(0), Access::Read) == Some(Err(WalkEnd::Fault { code: 4 })));
    assert!(Core::boot(4096).err() == Some(BootFault::NoMemory));
    drop(core);
    assert!(BLOCKS.load(Ordering::Relaxed) == 0);
    Core::boot(128).map(drop)
}

#[unsafe(no_mangle)]
extern "C" fn begin() -> ! {
    match tried_out() {
        Ok(()) => say("a core with no standard library: a word is stored and loaded\n"),
        Err(_) => leave(1),
    }
    leave(0)
}

global_asm!(".globl _start", "_start:", "xor ebp, ebp", "and rsp, -16", "call {}", sym begin);
