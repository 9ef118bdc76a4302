//! Tests of what a kernel does for its processes.

use tower::{Call, Cause, Core, Event, Frame, Holder, Offer, Page, Pid, Role, Size, Vaddr};

/// The first user page.
const FIRST: u32 = 0x40000;

/// A page of process memory, by its number from the first user page on.
fn page(number: u32) -> Page {
    Page(FIRST + number)
}

/// The first address of a page.
fn address(number: u32) -> Vaddr {
    Vaddr((FIRST + number) << 12)
}

/// A core with two children of the root, a giver and a taker.
fn core_with_two() -> (Core<'static>, Pid, Pid) {
    let mut core = Core::boot(256).unwrap();
    let giver = core.spawn(Pid::ROOT, 40).unwrap();
    let taker = core.spawn(Pid::ROOT, 40).unwrap();
    (core, giver, taker)
}

#[test]
fn a_family_ends_with_its_children_first() {
    let (mut core, parent, other) = core_with_two();
    let first = core.spawn(parent, 10).unwrap();
    let below = core.spawn(first, 4).unwrap();
    let second = core.spawn(parent, 10).unwrap();
    assert_eq!(*core.children(Pid::ROOT), [parent, other]);
    assert_eq!(*core.children(parent), [first, second]);
    assert_eq!(core.end(Pid::ROOT).unwrap_err(), Cause::RootExit);
    let exited = core.end(parent).unwrap();
    assert_eq!(exited.len(), 4);
    assert_eq!(exited.last(), Some(&parent));
    let place = |pid| exited.iter().position(|&exited| exited == pid).unwrap();
    assert!(place(below) < place(first));
    assert_eq!(*core.children(Pid::ROOT), [other]);
    assert!(core.children(parent).is_empty());
    assert_eq!(core.end(parent).unwrap_err(), Cause::NoProcess);
    assert_eq!(core.quota(Pid::ROOT).unwrap().given, 40);
}

#[test]
fn offers_come_in_the_order_of_pages_and_targets() {
    let (mut core, giver, taker) = core_with_two();
    for number in [3, 1] {
        core.store(giver, address(number), Size::Four, number)
            .unwrap()
            .ignore();
    }
    core.offer(giver, page(3), taker, false).unwrap();
    core.offer(giver, page(1), taker, true).unwrap();
    core.offer(giver, page(1), Pid::ROOT, false).unwrap();
    let offer = |number, target, write| Offer {
        page: page(number),
        target,
        write,
    };
    let offers: Vec<Offer> = core.offers(giver).collect();
    let expected = [
        offer(1, Pid::ROOT, false),
        offer(1, taker, true),
        offer(3, taker, false),
    ];
    assert_eq!(offers, expected);
    assert_eq!(core.next_offer(giver, page(3), 64), None);
    assert_eq!(core.offers(taker).next(), None);
}

#[test]
fn a_page_is_taken_back_from_all_that_share_it() {
    let (mut core, giver, taker) = core_with_two();
    core.store(giver, address(0), Size::Four, 77)
        .unwrap()
        .ignore();
    for number in 5..8 {
        core.offer(giver, page(0), taker, true).unwrap();
        core.accept(taker, giver, page(0), page(number))
            .unwrap()
            .ignore();
    }
    let holder = |number| Holder {
        pid: taker,
        page: page(number),
    };
    assert_eq!(
        core.next_holder(giver, page(0), taker, Page(0)),
        Some(page(5))
    );
    let mut lost = [holder(0); 2];
    assert_eq!(core.take_back(giver, page(0), &mut []), Ok(0));
    assert_eq!(core.take_back(giver, page(0), &mut lost), Ok(2));
    assert_eq!(lost, [holder(5), holder(6)]);
    assert_eq!(core.take_back(giver, page(0), &mut lost), Ok(1));
    assert_eq!(lost, [holder(7), holder(6)]);
    assert_eq!(core.next_holder(giver, page(0), taker, Page(0)), None);
    assert_eq!(core.info(giver, page(0)).unwrap().holders, 1);
    let refused = core.take_back(giver, page(9), &mut lost);
    assert_eq!(refused, Err(Cause::NotMapped));
}

#[test]
fn dirty_pages_are_seen_copied_and_cleaned() {
    let (mut core, pid, _) = core_with_two();
    for number in [2, 9] {
        core.store(pid, address(number), Size::Four, number)
            .unwrap()
            .ignore();
    }
    core.load(pid, address(4), Size::One).unwrap();
    let dirty: Vec<Page> = core.dirty_pages(pid).collect();
    assert_eq!(dirty, [page(2), page(9)]);
    let mut bytes = [0xff; 8];
    assert_eq!(core.peek(pid, address(9), &mut bytes), 8);
    assert_eq!(bytes, [9, 0, 0, 0, 0, 0, 0, 0]);
    assert_eq!(core.clean(pid, page(2)), Some(true));
    assert_eq!(core.clean(pid, page(2)), Some(false));
    assert_eq!(core.clean(pid, page(3)), None);
    assert_eq!(core.next_dirty(pid, Page(0)), Some(page(9)));
}

#[test]
fn bytes_are_loaded_into_all_pages_or_none() {
    let (mut core, pid, _) = core_with_two();
    let small = core.spawn(pid, 3).unwrap();
    let bytes: Vec<u8> = (0..6000u32).map(|number| number as u8).collect();
    let start = Vaddr(address(0).0 + 100);
    assert_eq!(
        core.load_bytes(small, start, &bytes, true),
        Err(Cause::Quota)
    );
    assert_eq!(core.quota(small).unwrap().used, 1);
    assert_eq!(core.load_bytes(pid, start, &bytes, false), Ok(()));
    let mut found = vec![0; bytes.len()];
    assert_eq!(core.peek(pid, start, &mut found), bytes.len());
    assert_eq!(found, bytes);
    assert!(!core.info(pid, page(1)).unwrap().write);
    assert_eq!(core.load_bytes(pid, address(1), &[7], true), Ok(()));
    assert!(core.info(pid, page(1)).unwrap().write);
    let outside = core.load_bytes(pid, Vaddr(0x3fff_ffff), &[1, 2], true);
    assert_eq!(outside, Err(Cause::BadPage));
    assert_eq!(core.load_bytes(pid, Vaddr(0), &[], true), Ok(()));
}

#[test]
fn an_event_may_write_the_frames_of_its_process_and_free_ones() {
    let (mut core, giver, taker) = core_with_two();
    core.store(giver, address(0), Size::Four, 77)
        .unwrap()
        .ignore();
    core.map(giver, page(1), true).unwrap();
    core.offer(giver, page(1), taker, true).unwrap();
    let directory = core.directory(giver).unwrap();
    let by = |pid, call| Event { cpu: 0, pid, call };
    let quota = by(taker, Call::Quota);
    assert_eq!(core.may_write(&quota, directory), Some(false));
    assert_eq!(
        core.may_write(&by(giver, Call::Quota), directory),
        Some(true)
    );
    let accept = by(
        taker,
        Call::Accept {
            giver,
            giver_page: page(1),
            page: page(5),
        },
    );
    assert_eq!(core.may_write(&accept, directory), Some(true));
    let free = (0..256)
        .map(Frame)
        .find(|&frame| core.role(frame) == Some(Role::Free))
        .unwrap();
    assert_eq!(core.may_write(&quota, free), Some(true));
    assert_eq!(core.may_write(&quota, Frame(0)), Some(false));
    assert_eq!(core.may_write(&quota, Frame(256)), None);
}
