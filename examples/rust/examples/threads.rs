//! Four threads share one core under a lock, as its type was proved to allow.

use std::sync::Mutex;
use std::thread;
use tower::{Call, Core, Event, Pid, Reply, Size, Vaddr};

const ADDRESS: u32 = 0x4000_0000;

/// Returns the address of a CPU's word.
fn place(cpu: u8) -> Vaddr {
    Vaddr(ADDRESS + 4 * u32::from(cpu))
}

fn main() -> Result<(), tower::BootFault> {
    let core = Mutex::new(Core::boot(64)?);
    thread::scope(|scope| {
        for cpu in 0..4 {
            let core = &core;
            scope.spawn(move || {
                for value in 0..1000 {
                    let call = Call::Store {
                        addr: place(cpu),
                        size: Size::Four,
                        value,
                    };
                    let event = Event {
                        cpu,
                        pid: Pid::ROOT,
                        call,
                    };
                    assert_eq!(core.lock().unwrap().step(&event), Reply::Done);
                }
            });
        }
    });
    let mut core = core.into_inner().unwrap();
    for cpu in 0..4 {
        let call = Call::Load {
            addr: place(cpu),
            size: Size::Four,
        };
        assert_eq!(
            core.step(&Event {
                cpu,
                pid: Pid::ROOT,
                call
            }),
            Reply::Value(999)
        );
    }
    println!("four threads stored 1,000 words each, one at a time; the last of each was loaded");
    Ok(())
}
