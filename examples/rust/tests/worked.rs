//! The repository's worked scripts, read from the crate that has them: each line as an event, and each reply
//! as a line.

use std::fmt::Write;
use std::str::SplitWhitespace;
use tower::{Call, Core, Event, Page, Pid, Size, Vaddr};

#[path = "../../../crates/script_examples/src/alone.rt"]
mod alone;
#[path = "../../../crates/script_examples/src/forks.rt"]
mod forks;
#[path = "../../../crates/script_examples/src/processes.rt"]
mod processes;
#[path = "../../../crates/script_examples/src/sharing.rt"]
mod sharing;

/// A script and the replies that it must get.
struct Worked {
    name: &'static str,
    frames: u32,
    script: &'static str,
    replies: &'static str,
    malformed: Option<u32>,
}

fn hexadecimal(words: &mut SplitWhitespace<'_>) -> Option<u32> {
    u32::from_str_radix(words.next()?, 16).ok()
}

fn page(words: &mut SplitWhitespace<'_>) -> Option<Page> {
    hexadecimal(words).map(Page)
}

fn pid(words: &mut SplitWhitespace<'_>) -> Option<Pid> {
    words.next()?.parse().ok().and_then(Pid::new)
}

fn size(words: &mut SplitWhitespace<'_>) -> Option<Size> {
    match words.next()? {
        "1" => Some(Size::One),
        "2" => Some(Size::Two),
        "4" => Some(Size::Four),
        _ => None,
    }
}

fn call(words: &mut SplitWhitespace<'_>) -> Option<Call> {
    Some(match words.next()? {
        "load" => Call::Load {
            addr: Vaddr(hexadecimal(words)?),
            size: size(words)?,
        },
        "store" => Call::Store {
            addr: Vaddr(hexadecimal(words)?),
            size: size(words)?,
            value: hexadecimal(words)?,
        },
        "map" => Call::Map {
            page: page(words)?,
            write: words.next()? == "rw",
        },
        "unmap" => Call::Unmap { page: page(words)? },
        "protect" => Call::Protect {
            page: page(words)?,
            write: words.next()? == "rw",
        },
        "info" => Call::Info { page: page(words)? },
        "offer" => Call::Offer {
            page: page(words)?,
            target: pid(words)?,
            write: words.next()? == "rw",
        },
        "withdraw" => Call::Withdraw {
            page: page(words)?,
            target: pid(words)?,
        },
        "accept" => Call::Accept {
            giver: pid(words)?,
            giver_page: page(words)?,
            page: page(words)?,
        },
        "spawn" => Call::Spawn {
            quota: words.next()?.parse().ok()?,
        },
        "fork" => Call::Fork {
            quota: words.next()?.parse().ok()?,
        },
        "exit" => Call::Exit,
        "quota" => Call::Quota,
        _ => return None,
    })
}

fn event(line: &str) -> Option<Event> {
    let mut words = line.split_whitespace();
    Some(Event {
        cpu: words.next()?.parse().ok()?,
        pid: pid(&mut words)?,
        call: call(&mut words)?,
    })
}

/// The events of a worked script.
fn events(worked: &Worked) -> Vec<Event> {
    let lines = worked.script.lines();
    lines
        .filter(|line| !line.starts_with('#'))
        .filter_map(event)
        .collect()
}

fn replies_to(worked: &Worked, events: &[Event]) -> String {
    let mut core = Core::boot(worked.frames).unwrap();
    let mut text = String::new();
    for event in events {
        writeln!(text, "{}", core.step(event)).unwrap();
    }
    text
}

/// The worked scripts without a malformed line.
fn whole() -> impl Iterator<Item = &'static Worked> {
    let all = alone::SCRIPTS
        .iter()
        .chain(&forks::SCRIPTS)
        .chain(&processes::SCRIPTS)
        .chain(&sharing::SCRIPTS);
    all.filter(|worked| worked.malformed.is_none())
}

#[test]
fn worked_scripts_have_their_replies() {
    assert!(whole().count() >= 24, "{} scripts", whole().count());
    for worked in whole() {
        let replies = replies_to(worked, &events(worked));
        assert_eq!(replies, worked.replies, "{}", worked.name);
    }
}

#[test]
fn printed_events_are_lines_of_the_same_events() {
    let (mut lines, mut words) = (0, Vec::new());
    for event in whole().flat_map(events) {
        let line = event.to_string();
        assert_eq!(self::event(&line), Some(event), "{line}");
        words.extend(line.split(' ').nth(2).map(String::from));
        lines += 1;
    }
    words.sort();
    words.dedup();
    assert!(
        lines >= 200 && words.len() == 13,
        "{lines} lines of {words:?}"
    );
}

#[test]
fn plain_lines_are_printed_as_they_are() {
    let plain = "7 63 store effffffe 2 beef\n0 0 load 0 1\n1 2 map 40000 rw\n1 2 map 40000 ro\n\
                 0 1 unmap f\n0 1 protect 50000 ro\n0 1 info 40001\n0 0 offer 40000 5 rw\n\
                 0 0 withdraw 40000 5\n3 5 accept 0 40000 ffffffff\n0 0 spawn 4294967295\n\
                 0 0 fork 3\n0 9 exit\n0 9 quota";
    for line in plain.lines() {
        let event = event(line).expect(line);
        assert_eq!(event.to_string(), line);
    }
}
