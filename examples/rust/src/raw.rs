//! The libraries' structs and functions, as c/include/tower.h and tower_images.h have them.

use ::core::ffi::c_void;
use ::core::mem::size_of;

#[repr(C)]
pub struct Tower {
    pub live: bool,
    pub core: *mut c_void,
}

#[repr(C)]
#[derive(Clone, Copy, Default)]
pub struct Event {
    pub cpu: u8,
    pub pid: u8,
    pub call: u8,
    pub flag: u8,
    pub first: u32,
    pub second: u32,
    pub third: u32,
}

#[repr(C)]
#[derive(Clone, Copy, Default)]
pub struct Reply {
    pub kind: u32,
    pub first: u32,
    pub second: u32,
    pub third: u32,
    pub write: bool,
    pub may: bool,
    pub accessed: bool,
    pub dirty: bool,
}

#[repr(C)]
#[derive(Clone, Copy, Default)]
pub struct Role {
    pub kind: u32,
    pub pid: u32,
    pub slot: u32,
    pub count: u32,
}

#[repr(C)]
#[derive(Clone, Copy, Default)]
pub struct Container {
    pub parent: u32,
    pub quota: u32,
    pub used: u32,
    pub given: u32,
    pub children: u32,
}

#[repr(C)]
#[derive(Clone, Copy, Default)]
pub struct Walk {
    pub kind: u32,
    pub frame: u32,
    pub code: u32,
}

#[repr(C)]
#[derive(Clone, Copy, Default)]
pub struct Ended {
    pub kind: u32,
    pub pid: u32,
    pub first: u32,
    pub second: u32,
}

#[repr(C)]
#[derive(Clone, Copy, Default)]
#[allow(clippy::struct_excessive_bools)] // (as the header has it)
pub struct Page {
    pub holders: u32,
    pub write: bool,
    pub may: bool,
    pub accessed: bool,
    pub dirty: bool,
    pub lazy: bool,
}

#[repr(C)]
#[derive(Clone, Copy)]
pub struct Processes {
    pub count: u32,
    pub pids: [u32; 64],
}

impl Default for Processes {
    fn default() -> Processes {
        Processes {
            count: 0,
            pids: [0; 64],
        }
    }
}

#[repr(C)]
#[derive(Clone, Copy, Default)]
pub struct Offer {
    pub page: u32,
    pub target: u32,
    pub write: bool,
}

#[repr(C)]
#[derive(Clone, Copy, Default)]
pub struct Holder {
    pub pid: u32,
    pub page: u32,
}

#[cfg(feature = "images")]
#[repr(C)]
#[derive(Clone, Copy, Default)]
pub struct Verdict {
    pub number: u32,
    pub clause: u32,
}

#[repr(C)]
pub struct Memory {
    pub begins: *mut u8,
    pub length: usize,
}

// The sizes that c/layout requires of the header.
const _: () = {
    assert!(size_of::<Tower>() == 16 && size_of::<Event>() == 16 && size_of::<Reply>() == 20);
    assert!(size_of::<Role>() == 16 && size_of::<Container>() == 20 && size_of::<Walk>() == 12);
    assert!(size_of::<Ended>() == 16 && size_of::<Memory>() == 16 && size_of::<Page>() == 12);
    assert!(size_of::<Processes>() == 260 && size_of::<Offer>() == 12 && size_of::<Holder>() == 8);
};

unsafe extern "C" {
    pub safe fn tower_version() -> u32;
    pub fn tower_boot(frames: u32, tower: *mut Tower) -> u32;
    pub fn tower_boot_wide(frames: u32, tower: *mut Tower) -> u32;
    pub fn tower_step(tower: *mut Tower, event: *const Event, reply: *mut Reply) -> bool;
    pub fn tower_run(
        tower: *mut Tower,
        events: *const Event,
        event_count: usize,
        replies: *mut Reply,
        reply_count: usize,
    ) -> bool;
    pub fn tower_run_until(
        tower: *mut Tower,
        events: *const Event,
        event_count: usize,
        replies: *mut Reply,
        reply_count: usize,
        carried: *mut usize,
    ) -> bool;
    pub fn tower_read(
        tower: *mut Tower,
        pid: u32,
        address: u32,
        bytes: *mut u8,
        byte_count: usize,
        moved: *mut usize,
        stop: *mut Reply,
    ) -> bool;
    pub fn tower_write(
        tower: *mut Tower,
        pid: u32,
        address: u32,
        bytes: *const u8,
        byte_count: usize,
        moved: *mut usize,
        stop: *mut Reply,
    ) -> bool;
    pub fn tower_next_page(
        tower: *const Tower,
        pid: u32,
        from: u32,
        page: *mut u32,
        found: *mut Page,
    ) -> bool;
    pub fn tower_children(tower: *const Tower, pid: u32, found: *mut Processes) -> bool;
    pub fn tower_next_offer(
        tower: *const Tower,
        pid: u32,
        page: u32,
        target: u32,
        offer: *mut Offer,
    ) -> bool;
    pub fn tower_next_holder(
        tower: *const Tower,
        pid: u32,
        page: u32,
        holder: u32,
        from: u32,
        found: *mut u32,
    ) -> bool;
    pub fn tower_next_dirty(tower: *const Tower, pid: u32, from: u32, page: *mut u32) -> bool;
    pub fn tower_peek(
        tower: *const Tower,
        pid: u32,
        address: u32,
        bytes: *mut u8,
        byte_count: usize,
        moved: *mut usize,
    ) -> bool;
    pub fn tower_load_bytes(
        tower: *mut Tower,
        pid: u32,
        address: u32,
        bytes: *const u8,
        byte_count: usize,
        write: bool,
        told: *mut Reply,
    ) -> bool;
    pub fn tower_clean(tower: *mut Tower, pid: u32, page: u32, dirty: *mut bool) -> bool;
    pub fn tower_end(tower: *mut Tower, pid: u32, exited: *mut Processes, told: *mut Reply)
    -> bool;
    pub fn tower_take_back(
        tower: *mut Tower,
        pid: u32,
        page: u32,
        lost: *mut Holder,
        lost_count: usize,
        count: *mut usize,
        told: *mut Reply,
    ) -> bool;
    pub fn tower_ends(tower: *const Tower, event: *const Event, ended: *mut Ended) -> bool;
    pub fn tower_may_write(
        tower: *const Tower,
        event: *const Event,
        frame: u32,
        may: *mut bool,
    ) -> bool;
    pub fn tower_step_ending(
        tower: *mut Tower,
        event: *const Event,
        reply: *mut Reply,
        ended: *mut Ended,
    ) -> bool;
    pub fn tower_frames(tower: *const Tower) -> u32;
    pub fn tower_directory(tower: *const Tower, pid: u32, frame: *mut u32) -> bool;
    pub fn tower_container(tower: *const Tower, pid: u32, container: *mut Container) -> bool;
    pub fn tower_role(tower: *const Tower, frame: u32, role: *mut Role) -> bool;
    pub fn tower_walk(
        tower: *const Tower,
        pid: u32,
        address: u32,
        write: bool,
        found: *mut Walk,
    ) -> bool;
    pub fn tower_copy_frame(
        tower: *const Tower,
        frame: u32,
        bytes: *mut u8,
        byte_count: usize,
    ) -> bool;
    pub fn tower_memory(tower: *const Tower, memory: *mut Memory) -> bool;
    pub fn tower_free(tower: *mut Tower);
}

#[cfg(feature = "images")]
unsafe extern "C" {
    pub fn tower_image(
        tower: *const Tower,
        bytes: *mut u8,
        byte_count: usize,
        size: *mut usize,
    ) -> u32;
    pub fn tower_check(tower: *const Tower, verdict: *mut Verdict) -> u32;
    pub fn tower_check_bytes(bytes: *const u8, byte_count: usize, verdict: *mut Verdict) -> u32;
    pub fn tower_restore(
        bytes: *const u8,
        byte_count: usize,
        tower: *mut Tower,
        verdict: *mut Verdict,
    ) -> u32;
    pub fn tower_store_front(
        tower: *const Tower,
        bytes: *mut u8,
        byte_count: usize,
        size: *mut usize,
    ) -> u32;
    pub fn tower_store_frame(
        tower: *const Tower,
        frame: u32,
        bytes: *mut u8,
        byte_count: usize,
    ) -> u32;
    pub fn tower_restore_whole(
        bytes: *const u8,
        byte_count: usize,
        tower: *mut Tower,
        verdict: *mut Verdict,
    ) -> u32;
}

#[cfg(feature = "threads")]
#[repr(C)]
pub struct TowerCpu {
    pub live: bool,
    pub cpu: *mut c_void,
}

#[cfg(feature = "threads")]
#[repr(C)]
pub struct TowerMonitor {
    pub live: bool,
    pub monitor: *mut c_void,
}

#[cfg(feature = "threads")]
#[repr(C)]
#[derive(Clone, Copy, Debug, Default)]
pub struct Row {
    pub live: bool,
    pub parent: u8,
    pub quota: u32,
    pub used: u32,
    pub given: u32,
}

#[cfg(feature = "threads")]
unsafe extern "C" {
    pub fn tower_share(
        tower: *mut Tower,
        cpus: *mut TowerCpu,
        cpu_count: usize,
        monitors: *mut TowerMonitor,
        monitor_count: usize,
    ) -> u32;
    pub fn tower_cpu_take(cpu: *mut TowerCpu, tower: *mut Tower) -> u32;
    pub fn tower_cpu_give(cpu: *mut TowerCpu, tower: *mut Tower, publish: bool) -> u32;
    pub fn tower_cpu_count(cpu: *mut TowerCpu) -> u64;
    pub fn tower_cpu_close(cpu: *mut TowerCpu) -> u32;
    pub fn tower_cpu_free(cpu: *mut TowerCpu);
    pub fn tower_monitor_read(
        monitor: *mut TowerMonitor,
        count: *mut u64,
        rows: *mut Row,
        row_count: usize,
    ) -> u32;
    pub fn tower_monitor_free(monitor: *mut TowerMonitor);
}
