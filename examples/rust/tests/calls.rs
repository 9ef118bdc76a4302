//! Tests of each call and query, and of the conversion between types and numbers.

use tower::{
    Access, BootFault, Call, Cause, Container, Core, Ended, Event, FRAME_BYTES, Failure, Frame,
    Info, Page, Pid, Reply, Role, Size, Stopped, UnequalLengths, Usage, Vaddr, WalkEnd,
};

const PAGE: Page = Page(0x40000);
const OTHER_PAGE: Page = Page(0x50000);
const ADDR: Vaddr = Vaddr(0x4000_0008);

fn step(core: &mut Core, pid: Pid, call: Call) -> Reply {
    core.step(&Event { cpu: 0, pid, call })
}

/// Returns a core whose process 0 stored a word and gave its page, read-only, to a child, and that child.
fn shared() -> (Core<'static>, Pid) {
    let mut core = Core::boot(64).unwrap();
    let store = Call::Store {
        addr: ADDR,
        size: Size::Four,
        value: 0x1122_3344,
    };
    assert_eq!(step(&mut core, Pid::ROOT, store), Reply::Done);
    let Reply::Child(child) = step(&mut core, Pid::ROOT, Call::Spawn { quota: 10 }) else {
        panic!("a child")
    };
    let offer = Call::Offer {
        page: PAGE,
        target: child,
        write: false,
    };
    assert_eq!(step(&mut core, Pid::ROOT, offer), Reply::Done);
    let accept = Call::Accept {
        giver: Pid::ROOT,
        giver_page: PAGE,
        page: OTHER_PAGE,
    };
    assert_eq!(step(&mut core, child, accept), Reply::Done);
    (core, child)
}

#[test]
fn boots_of_16_to_4096_frames() {
    for frames in [0, 15, 4097] {
        assert_eq!(Core::boot(frames).err(), Some(BootFault::BadSize));
    }
    for frames in [16, 4096] {
        assert_eq!(Core::boot(frames).unwrap().frames(), frames);
    }
    assert_eq!(BootFault::BadSize.to_string(), "frames must be 16 to 4096");
    assert_eq!(tower::version(), tower::VERSION);
}

#[test]
fn shares_a_page() {
    let (mut core, child) = shared();
    let load = Call::Load {
        addr: Vaddr(0x5000_0009),
        size: Size::One,
    };
    assert_eq!(step(&mut core, child, load), Reply::Value(0x33));
    let store = Call::Store {
        addr: Vaddr(0x5000_0000),
        size: Size::Four,
        value: 1,
    };
    assert_eq!(
        step(&mut core, child, store),
        Reply::Fault {
            addr: Vaddr(0x5000_0000),
            code: 7
        }
    );
    let told = Reply::Info {
        write: false,
        may: false,
        accessed: true,
        dirty: false,
        holders: 2,
    };
    assert_eq!(
        step(&mut core, child, Call::Info { page: OTHER_PAGE }),
        told
    );
    assert_eq!(
        step(&mut core, child, Call::Quota),
        Reply::Quota {
            quota: 10,
            used: 3,
            given: 0
        }
    );
}

#[test]
fn tells_the_causes() {
    let (mut core, child) = shared();
    let refused = [
        (Pid::new(9).unwrap(), Call::Quota, Cause::NoProcess),
        (child, Call::Unmap { page: Page(1) }, Cause::BadPage),
        (child, Call::Unmap { page: PAGE }, Cause::NotMapped),
        (
            child,
            Call::Map {
                page: OTHER_PAGE,
                write: true,
            },
            Cause::Mapped,
        ),
        (
            child,
            Call::Protect {
                page: OTHER_PAGE,
                write: true,
            },
            Cause::Rights,
        ),
        (
            child,
            Call::Offer {
                page: OTHER_PAGE,
                target: child,
                write: false,
            },
            Cause::SelfOffer,
        ),
        (
            child,
            Call::Withdraw {
                page: OTHER_PAGE,
                target: Pid::ROOT,
            },
            Cause::NoOffer,
        ),
        (child, Call::Spawn { quota: 8 }, Cause::Quota),
        (child, Call::Fork { quota: 2 }, Cause::TooSmall),
        (Pid::ROOT, Call::Exit, Cause::RootExit),
    ];
    for (pid, call, cause) in refused {
        assert_eq!(step(&mut core, pid, call), Reply::Refused(cause), "{cause}");
    }
    assert_eq!(step(&mut core, child, Call::Exit), Reply::Done);
}

#[test]
fn walks_as_the_processor_does() {
    let (core, child) = shared();
    let own = core.walk(Pid::ROOT, ADDR, Access::Write).unwrap().unwrap();
    assert_eq!(
        core.walk(child, Vaddr(0x5000_0008), Access::Read),
        Some(Ok(own))
    );
    assert_eq!(
        core.walk(child, Vaddr(0x5000_0008), Access::Write),
        Some(Err(WalkEnd::Fault { code: 7 }))
    );
    assert_eq!(
        core.walk(child, ADDR, Access::Read),
        Some(Err(WalkEnd::Fault { code: 4 }))
    );
    assert_eq!(core.walk(Pid::new(2).unwrap(), ADDR, Access::Read), None);
    assert_eq!(core.role(own), Some(Role::Page { count: 2 }));
    let mut bytes = [0; FRAME_BYTES];
    assert!(core.copy_frame(own, &mut bytes));
    assert_eq!(bytes[8..12], 0x1122_3344_u32.to_le_bytes());
    assert!(!core.copy_frame(Frame(64), &mut bytes));
}

#[test]
fn asks_of_processes_and_frames() {
    let (core, child) = shared();
    let container = Container {
        parent: Pid::ROOT,
        quota: 10,
        used: 3,
        given: 0,
        children: 0,
    };
    assert_eq!(core.container(child), Some(container));
    assert_eq!(core.container(Pid::new(2).unwrap()), None);
    let directory = core.directory(child).unwrap();
    assert_eq!(core.role(directory), Some(Role::Directory { pid: child }));
    assert_eq!(
        (core.role(Frame(0)), core.role(Frame(64))),
        (Some(Role::Reserved), None)
    );
}

#[test]
fn runs_many_events() {
    let (mut one, mut other) = (Core::boot(256).unwrap(), Core::boot(256).unwrap());
    let events: Vec<Event> = (0..100)
        .map(|nth| Event {
            cpu: 1,
            pid: Pid::ROOT,
            call: Call::Map {
                page: Page(0x40000 + nth / 2),
                write: true,
            },
        })
        .collect();
    let mut replies = vec![Reply::Done; 100];
    assert_eq!(one.run(&events, &mut replies[1..]), Err(UnequalLengths));
    assert_eq!(one.run(&events, &mut replies), Ok(()));
    let stepped: Vec<Reply> = events.iter().map(|event| other.step(event)).collect();
    assert_eq!(replies, stepped);
    assert_eq!(replies[98..], [Reply::Done, Reply::Refused(Cause::Mapped)]);
}

#[test]
fn crosses_threads() {
    let (mut core, child) = shared();
    let told = std::thread::spawn(move || step(&mut core, child, Call::Quota))
        .join()
        .unwrap();
    assert_eq!(
        told,
        Reply::Quota {
            quota: 10,
            used: 3,
            given: 0
        }
    );
}

/// Carries out an event, which must end what `ends` returned before it. Returns the reply, and what was ended.
fn ending(core: &mut Core, pid: Pid, call: Call) -> (Reply, Ended) {
    let event = Event { cpu: 0, pid, call };
    let told = core.ends(&event);
    let (reply, ended) = core.step_ending(&event);
    assert_eq!(ended, told);
    (reply, ended)
}

#[test]
fn tells_what_an_event_ends() {
    let (mut core, child) = shared();
    let (page, lazy) = (PAGE, Page(0x40001));
    let own = Ended::Page {
        pid: Pid::ROOT,
        page,
    };
    let lazy_page = Ended::Page {
        pid: Pid::ROOT,
        page: lazy,
    };
    let accept = Call::Accept {
        giver: Pid::ROOT,
        giver_page: lazy,
        page: lazy,
    };
    let offer = Call::Offer {
        page: lazy,
        target: child,
        write: false,
    };
    let map = Call::Map {
        page: lazy,
        write: true,
    };
    // (the page that the child accepts has no frame yet: the giver's translation ends)
    let calls = [
        (Pid::ROOT, map, Ended::Nothing),
        (Pid::ROOT, offer, Ended::Nothing),
        (child, accept, lazy_page),
        (Pid::ROOT, Call::Protect { page, write: false }, own),
        (
            Pid::ROOT,
            Call::Protect { page, write: true },
            Ended::Nothing,
        ),
        (Pid::ROOT, Call::Unmap { page }, own),
        (child, Call::Exit, Ended::Space { pid: child }),
    ];
    for (pid, call, ended) in calls {
        assert_eq!(
            ending(&mut core, pid, call),
            (Reply::Done, ended),
            "{call:?}"
        );
    }
    let refused = (Reply::Refused(Cause::NotMapped), Ended::Nothing);
    assert_eq!(ending(&mut core, Pid::ROOT, Call::Unmap { page }), refused);
}

#[test]
fn tells_both_pages_that_a_store_fills() {
    let mut core = Core::boot(64).unwrap();
    for page in [PAGE, Page(0x40001)] {
        let map = Call::Map { page, write: true };
        assert_eq!(step(&mut core, Pid::ROOT, map), Reply::Done);
    }
    let store = Call::Store {
        addr: Vaddr(0x4000_0ffe),
        size: Size::Four,
        value: 1,
    };
    let both = Ended::Pages {
        pid: Pid::ROOT,
        first: PAGE,
        second: Page(0x40001),
    };
    assert_eq!(ending(&mut core, Pid::ROOT, store), (Reply::Done, both));
    assert_eq!(
        ending(&mut core, Pid::ROOT, store),
        (Reply::Done, Ended::Nothing)
    );
}

#[test]
fn calls_as_methods() -> Result<(), Box<dyn std::error::Error>> {
    let (mut core, child) = shared();
    core.map(Pid::ROOT, Page(0x40001), true)?;
    core.store(Pid::ROOT, Vaddr(0x4000_1000), Size::Two, 0x1234)?
        .ignore();
    assert_eq!(core.load(Pid::ROOT, Vaddr(0x4000_1001), Size::One)?, 0x12);
    core.protect(Pid::ROOT, Page(0x40001), false)?.ignore();
    let fault = Failure::Fault {
        addr: Vaddr(0x4000_1000),
        code: 7,
    };
    let store = core.store(Pid::ROOT, Vaddr(0x4000_1000), Size::One, 0);
    assert_eq!(store, Err(fault));
    assert_eq!(fault.to_string(), "page fault at 40001000, code 7");
    let told = Info {
        write: false,
        may: true,
        accessed: true,
        dirty: true,
        holders: 1,
    };
    assert_eq!(core.info(Pid::ROOT, Page(0x40001))?, told);
    core.offer(Pid::ROOT, Page(0x40001), child, false)?;
    core.withdraw(Pid::ROOT, Page(0x40001), child)?;
    let accept = core.accept(child, Pid::ROOT, Page(0x40001), Page(0x40001));
    assert_eq!(accept, Err(Failure::Refused(Cause::NoOffer)));
    let usage = Usage {
        quota: 10,
        used: 3,
        given: 0,
    };
    assert_eq!(core.quota(child)?, usage);
    let grandchild = core.spawn(child, 1)?;
    core.exit(grandchild)?.ignore();
    let copy = core.fork(Pid::ROOT, 10)?;
    core.unmap(copy, Page(0x40001))?.ignore();
    core.exit(copy)?.ignore();
    assert_eq!(format!("{core:?}"), "Core { frames: 64, .. }");
    Ok(())
}

#[test]
fn calls_return_what_they_end() -> Result<(), Failure> {
    let mut core = Core::boot(64).unwrap();
    let child = core.spawn(Pid::ROOT, 10)?;
    let (first, second) = (Page(0x40000), Page(0x40001));
    let page = |pid, page| Ended::Page { pid, page };
    core.map(Pid::ROOT, first, true)?;
    core.map(Pid::ROOT, second, true)?;
    let across = Vaddr(0x4000_0ffe);
    let both = Ended::Pages {
        pid: Pid::ROOT,
        first,
        second,
    };
    assert_eq!(core.store(Pid::ROOT, across, Size::Four, 7)?, both);
    assert_eq!(
        core.store(Pid::ROOT, across, Size::Four, 8)?,
        Ended::Nothing
    );
    assert_eq!(core.protect(Pid::ROOT, first, true)?, Ended::Nothing);
    assert_eq!(
        core.protect(Pid::ROOT, first, false)?,
        page(Pid::ROOT, first)
    );
    let lazy = Page(0x50000);
    core.map(Pid::ROOT, lazy, true)?;
    core.offer(Pid::ROOT, lazy, child, true)?;
    assert_eq!(
        core.accept(child, Pid::ROOT, lazy, first)?,
        page(Pid::ROOT, lazy)
    );
    core.offer(Pid::ROOT, second, child, true)?;
    assert_eq!(
        core.accept(child, Pid::ROOT, second, second)?,
        Ended::Nothing
    );
    assert_eq!(core.unmap(child, first)?, page(child, first));
    assert_eq!(
        core.unmap(child, first),
        Err(Failure::Refused(Cause::NotMapped))
    );
    assert_eq!(core.exit(child)?, Ended::Space { pid: child });
    Ok(())
}

#[test]
fn tells_where_its_memory_lies() {
    let (core, _) = shared();
    let own = core.walk(Pid::ROOT, ADDR, Access::Read).unwrap().unwrap();
    let memory = core.memory();
    assert_eq!(memory.len(), 64 * FRAME_BYTES);
    let place = FRAME_BYTES * own.0 as usize + 8;
    // SAFETY: the place is within the memory, and no call is made meanwhile.
    let byte = unsafe { memory.cast::<u8>().add(place).read() };
    assert_eq!(byte, 0x44);
}

#[test]
fn stops_at_the_first_that_is_refused() {
    let mut core = Core::boot(64).unwrap();
    let map = |nth: u32| Event {
        cpu: 0,
        pid: Pid::ROOT,
        call: Call::Map {
            page: Page(0x40000 + nth % 50),
            write: true,
        },
    };
    let events: Vec<Event> = (0..90).map(map).collect();
    let mut replies = vec![Reply::Value(9); 90];
    assert_eq!(
        core.run_until(&events, &mut replies[1..]),
        Err(UnequalLengths)
    );
    assert_eq!(core.run_until(&events, &mut replies), Ok(50));
    assert_eq!(
        replies[49..52],
        [Reply::Done, Reply::Refused(Cause::Mapped), Reply::Value(9)]
    );
    assert_eq!(core.run_until(&events[..1], &mut replies[..1]), Ok(0));
}

#[test]
fn copies_in_and_out() {
    let (mut core, child) = shared();
    let wrote: Vec<u8> = (0..10_000_u32).map(|nth| nth.to_le_bytes()[0]).collect();
    let from = Vaddr(0x4000_0ff0);
    assert_eq!(core.write_bytes(Pid::ROOT, from, &wrote), Ok(()));
    let mut read = vec![0; 10_000];
    assert_eq!(core.read_bytes(Pid::ROOT, from, &mut read), Ok(()));
    assert_eq!(read, wrote);
    // the child has the first of these pages, read-only
    let mut few = [9; 32];
    let stopped = Stopped {
        count: 0,
        failure: Failure::Fault {
            addr: Vaddr(0x5000_0ff0),
            code: 7,
        },
    };
    assert_eq!(
        core.write_bytes(child, Vaddr(0x5000_0ff0), &few),
        Err(stopped)
    );
    assert_eq!(
        core.read_bytes(child, Vaddr(0x5000_0ff0), &mut few[..16]),
        Ok(())
    );
    assert_eq!(few[..16], wrote[..16]);
    assert_eq!(few[16..], [9; 16]);
}

#[test]
fn stops_a_transfer_at_the_end_of_the_user_range() {
    let mut core = Core::boot(64).unwrap();
    let stopped = Stopped {
        count: 10,
        failure: Failure::Fault {
            addr: Vaddr(0xf000_0000),
            code: 6,
        },
    };
    assert_eq!(
        core.write_bytes(Pid::ROOT, Vaddr(0xefff_fff6), &[1; 20]),
        Err(stopped)
    );
    let mut read = [9; 20];
    let stop = core.read_bytes(Pid::ROOT, Vaddr(0xefff_fff6), &mut read);
    assert_eq!(stop.unwrap_err().count, 10);
    assert_eq!((&read[..10], &read[10..]), (&[1; 10][..], &[9; 10][..]));
    assert_eq!(core.read_bytes(Pid::ROOT, Vaddr(0), &mut []), Ok(()));
    let none = core.read_bytes(Pid::new(3).unwrap(), ADDR, &mut read);
    assert_eq!(
        none.unwrap_err().failure,
        Failure::Refused(Cause::NoProcess)
    );
}

#[test]
fn goes_over_pages() {
    let (mut core, child) = shared();
    for page in [0x40001, 0x40400, 0xeffff] {
        core.map(Pid::ROOT, Page(page), false).unwrap();
    }
    let pages: Vec<u32> = core.pages(Pid::ROOT).map(|it| it.page.0).collect();
    assert_eq!(pages, [0x40000, 0x40001, 0x40400, 0xeffff]);
    let only = core.pages(child).collect::<Vec<_>>();
    assert_eq!(only.len(), 1);
    assert_eq!((only[0].page, only[0].holders), (OTHER_PAGE, 2));
    assert!(!only[0].write && !only[0].lazy);
    let lazy = core.next_page(Pid::ROOT, Page(0x40001)).unwrap();
    assert!(lazy.lazy && lazy.may && !lazy.write && !lazy.accessed && lazy.holders == 1);
    assert_eq!(core.next_page(Pid::ROOT, Page(0xf0000)), None);
    assert_eq!(core.pages(Pid::new(9).unwrap()).count(), 0);
}

#[test]
fn addresses_print_in_hexadecimal() {
    let failure = Failure::Fault {
        addr: Vaddr(0x5000_0000),
        code: 7,
    };
    assert_eq!(
        format!("{failure:?} {:?}", Page(0x40000)),
        "Fault { addr: Vaddr(0x50000000), code: 7 } Page(0x40000)"
    );
}
