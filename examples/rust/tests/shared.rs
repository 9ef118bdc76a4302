//! Tests of a core that threads take and give back, and of what is refused.
#![cfg(feature = "threads")]

use tower::{Absent, Core, Cpu, Pid, ShareFault, Size, Vaddr};

const ADDR: Vaddr = Vaddr(0x4000_0008);

/// Counts a word of process 0 one up, and returns what it was.
fn count_up(core: &mut Core) -> u32 {
    let count = core.load(Pid::ROOT, ADDR, Size::Four).unwrap();
    core.store(Pid::ROOT, ADDR, Size::Four, count + 1)
        .unwrap()
        .ignore();
    count
}

/// Shares a core of 16 frames among two CPUs.
fn two() -> [Cpu<'static>; 2] {
    let shared = Core::boot(16).unwrap().share::<2, 0>();
    shared.unwrap_or_else(|(_, fault)| panic!("{fault}")).0
}

#[test]
fn one_cpu_has_the_core_at_a_time() {
    let [mut one, mut other] = two();
    let mut core = one.take().unwrap();
    assert_eq!(other.try_take().err(), Some(Absent::Busy));
    assert_eq!(count_up(&mut core), 0);
    drop(core);
    assert_eq!(count_up(&mut other.try_take().unwrap()), 1);
    assert_eq!((one.count(), other.count()), (1, 2));
    assert_eq!(count_up(&mut one.take().unwrap()), 2);
}

#[test]
fn a_kept_core_is_taken_by_no_cpu() {
    let [mut one, mut other] = two();
    let mut core = one.take().unwrap().keep();
    assert_eq!(other.take().err(), Some(Absent::Kept));
    assert_eq!(one.try_take().err(), Some(Absent::Kept));
    drop((one, other));
    assert_eq!(count_up(&mut core), 0);
}

#[test]
fn a_report_is_of_the_last_core_that_was_published() {
    let shared = Core::boot(16).unwrap().share::<1, 1>();
    let ([mut cpu], [mut monitor]) = shared.unwrap_or_else(|(_, fault)| panic!("{fault}"));
    let mut told = || {
        let report = monitor.read();
        let root = report.container(Pid::ROOT).expect("it is live");
        assert!(report.container(Pid::new(1).unwrap()).is_none());
        assert_eq!((root.parent, root.quota, root.given), (Pid::ROOT, 15, 0));
        (report.count, root.used)
    };
    assert_eq!(told(), (0, 1));
    count_up(&mut cpu.take().unwrap());
    assert_eq!(told(), (0, 1), "a drop publishes nothing");
    cpu.take().unwrap().publish();
    assert_eq!(told(), (2, 3));
}

#[test]
fn what_is_refused_returns_the_core() {
    let Err((core, fault)) = Core::boot(16).unwrap().share::<0, 1>() else {
        panic!("no CPU")
    };
    assert_eq!(fault, ShareFault::BadCount);
    let Err((core, fault)) = core.share::<9, 0>() else {
        panic!("nine CPUs")
    };
    assert_eq!(
        fault.to_string(),
        "not 1 to 8 CPUs, or more than 8 monitors"
    );
    let Err((mut core, _)) = core.share::<8, 9>() else {
        panic!("nine monitors")
    };
    assert_eq!(count_up(&mut core), 0);
    assert!(core.share::<8, 8>().is_ok());
}

#[cfg(feature = "blocks")]
#[test]
fn the_last_handle_frees_the_core_of_a_block() {
    const BYTES: usize = tower::block_bytes(16);
    #[repr(align(4096))]
    struct Block([u8; BYTES]);
    let mut block = Box::new(Block([0; BYTES]));
    for _ in 0..2 {
        let core = Core::over(16, &mut block.0).unwrap();
        let ([mut one, other], [monitor]) = core.share::<2, 1>().unwrap_or_else(|_| panic!());
        assert_eq!(count_up(&mut one.take().unwrap()), 0);
        drop((monitor, one, other));
    }
}
