//! Four threads share one core without a lock of the program's, and a fifth reads reports meanwhile.

use std::sync::atomic::{AtomicBool, Ordering};
use std::thread;
use tower::{Call, Core, Event, Pid, Reply, Size, Vaddr};

const COUNTER: Vaddr = Vaddr(0x4000_0000);
const TIMES: u32 = 10_000;

/// A call of process 0.
fn by_root(call: Call) -> Event {
    Event {
        cpu: 0,
        pid: Pid::ROOT,
        call,
    }
}

/// Loads the counter.
fn counted(core: &mut Core) -> u32 {
    let load = Call::Load {
        addr: COUNTER,
        size: Size::Four,
    };
    match core.step(&by_root(load)) {
        Reply::Value(value) => value,
        other => panic!("{other}"),
    }
}

/// Counts one up: a load and a store, which no other thread can come between.
fn count_up(core: &mut Core) {
    let value = counted(core) + 1;
    let store = Call::Store {
        addr: COUNTER,
        size: Size::Four,
        value,
    };
    assert_eq!(core.step(&by_root(store)), Reply::Done);
}

fn main() -> Result<(), tower::BootFault> {
    let core = Core::boot(64)?;
    let Ok((mut cpus, [mut monitor])) = core.share::<4, 1>() else {
        panic!("it was not shared");
    };
    let done = AtomicBool::new(false);
    thread::scope(|scope| {
        let watching = scope.spawn(|| {
            let mut last = 0;
            while !done.load(Ordering::SeqCst) {
                let report = monitor.read();
                assert!(report.count >= last, "reports never go back");
                assert_eq!(report.container(Pid::ROOT).map(|root| root.quota), Some(63));
                last = report.count;
            }
        });
        let workers = cpus.each_mut().map(|cpu| {
            scope.spawn(move || {
                for time in 0..TIMES {
                    let mut core = cpu.take().expect("no CPU keeps it");
                    count_up(&mut core);
                    if time % 16 == 0 {
                        core.publish();
                    }
                }
            })
        });
        for worker in workers {
            worker.join().expect("no thread panics");
        }
        done.store(true, Ordering::SeqCst);
        watching.join().expect("no thread panics");
    });
    let mut core = cpus[2].take().expect("no CPU keeps it").keep();
    assert_eq!(counted(&mut core), 4 * TIMES);
    assert!(cpus.iter_mut().all(|cpu| cpu.take().is_err()));
    println!(
        "four threads counted to {}, and no count was lost",
        4 * TIMES
    );
    Ok(())
}
