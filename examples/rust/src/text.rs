//! Events and replies as the lines of scripts and of their replies, which docs/MACHINE.md has ("Scripts").
//!
//! If a program logs each event of a core from its boot on as a line, `tower run` with as many frames runs the log
//! again, and prints the lines of the replies.

use crate::words::{Call, Event, Pid, Reply};
use ::core::fmt;

impl fmt::Display for Pid {
    /// Writes the process's number.
    fn fmt(&self, to: &mut fmt::Formatter<'_>) -> fmt::Result {
        self.number().fmt(to)
    }
}

/// The word of a script for a right.
fn right(write: bool) -> &'static str {
    if write { "rw" } else { "ro" }
}

impl fmt::Display for Call {
    /// Writes the call as a script's line has it, after the CPU and the process.
    fn fmt(&self, to: &mut fmt::Formatter<'_>) -> fmt::Result {
        match *self {
            Call::Load { addr, size } => write!(to, "load {:x} {}", addr.0, size as u8),
            Call::Store { addr, size, value } => {
                write!(to, "store {:x} {} {value:x}", addr.0, size as u8)
            }
            Call::Map { page, write } => write!(to, "map {:x} {}", page.0, right(write)),
            Call::Unmap { page } => write!(to, "unmap {:x}", page.0),
            Call::Protect { page, write } => write!(to, "protect {:x} {}", page.0, right(write)),
            Call::Info { page } => write!(to, "info {:x}", page.0),
            Call::Offer {
                page,
                target,
                write,
            } => write!(to, "offer {:x} {target} {}", page.0, right(write)),
            Call::Withdraw { page, target } => write!(to, "withdraw {:x} {target}", page.0),
            Call::Accept {
                giver,
                giver_page,
                page,
            } => write!(to, "accept {giver} {:x} {:x}", giver_page.0, page.0),
            Call::Spawn { quota } => write!(to, "spawn {quota}"),
            Call::Fork { quota } => write!(to, "fork {quota}"),
            Call::Exit => to.write_str("exit"),
            Call::Quota => to.write_str("quota"),
        }
    }
}

impl fmt::Display for Event {
    /// Writes a script's line, such as `0 3 store 40000000 4 11223344`. A script's CPU is 0 to 7.
    fn fmt(&self, to: &mut fmt::Formatter<'_>) -> fmt::Result {
        write!(to, "{} {} {}", self.cpu, self.pid, self.call)
    }
}

impl fmt::Display for Reply {
    /// Writes the line that `tower run` prints, such as `value 00000009` or `refused Mapped`.
    fn fmt(&self, to: &mut fmt::Formatter<'_>) -> fmt::Result {
        match *self {
            Reply::Done => to.write_str("done"),
            Reply::Value(value) => write!(to, "value {value:08x}"),
            Reply::Child(pid) => write!(to, "child {pid}"),
            Reply::Info {
                write,
                may,
                accessed,
                dirty,
                holders,
            } => {
                let [write, may, accessed, dirty] = [write, may, accessed, dirty].map(u8::from);
                write!(to, "info {write} {may} {accessed} {dirty} {holders}")
            }
            Reply::Quota { quota, used, given } => write!(to, "quota {quota} {used} {given}"),
            Reply::Fault { addr, code } => write!(to, "fault {:08x} {code}", addr.0),
            Reply::Refused(cause) => write!(to, "refused {cause}"),
        }
    }
}
