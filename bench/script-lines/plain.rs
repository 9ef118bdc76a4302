//! bench/script-lines/plain.rs: `tower run [--frames N]` in plain Rust, tuned by hand, for comparison. It has the core
//! in machine.rs and the lines in lines.rs. It gives the same replies, faults and statuses as the proved program.
//!
//!     rustc -O --edition 2021 bench/script-lines/plain.rs -o plain && ./plain run --frames 64 < script
//!
//! Nothing of it is proved.
mod lines;
mod machine;

use lines::{any, usual, LINE, ROOM};
use machine::{Machine, LEAST_FRAMES, MOST_FRAMES};
use std::fs::File;
use std::io::{ErrorKind, Read, Write};
use std::mem::ManuallyDrop;
use std::os::fd::FromRawFd;
use std::process::exit;

const SCRIPT: usize = 16_777_216;
const BLOCK: usize = 65_536;
/// Replies of a block: a line of nine bytes, the shortest, has a reply of at most 20.
const REPLIES: usize = 3 * (LINE + BLOCK) + 2 * ROOM;

enum Fault {
    NoMemory,
    Malformed(u32),
    TooLong,
    ReadFailed,
    WriteFailed,
}

/// A script's progress: the machine, the bytes of the line that hasn't ended at the front of the block, the lines.
struct Session {
    machine: Box<Machine>,
    block: Vec<u8>,
    kept: usize,
    lines: u32,
    replies: Vec<u8>,
}

impl Session {
    /// Carries out the lines in so many bytes of the block, the last of which is a line feed, and writes the replies.
    fn carry_out(&mut self, count: usize, output: &mut File) -> Result<(), Fault> {
        let machine = &mut *self.machine;
        let begins = self.replies.as_mut_ptr();
        let (mut at, mut to, mut lines) = (self.block.as_ptr(), begins, self.lines);
        // The block has room after `ends`, and the replies have room for all lines of a block.
        let ends = unsafe { at.add(count) };
        let mut is_malformed = false;
        while at < ends {
            lines += 1;
            if let Some(next) = unsafe { usual(machine, at, to) } {
                (at, to) = next;
                continue;
            }
            let rest = unsafe { std::slice::from_raw_parts(at, ends.offset_from(at) as usize) };
            let line = rest.iter().position(|byte| *byte == b'\n').map_or(rest, |end| &rest[..end]);
            match unsafe { any(machine, line, to) } {
                Some(next) => (at, to) = (unsafe { at.add(line.len() + 1) }, next),
                None => {
                    is_malformed = true;
                    break;
                }
            }
        }
        self.lines = lines;
        let written = unsafe { to.offset_from(begins) } as usize;
        output.write_all(&self.replies[..written]).map_err(|_| Fault::WriteFailed)?;
        if is_malformed {
            Err(Fault::Malformed(lines))
        } else {
            Ok(())
        }
    }

    /// Reads at most so many bytes after those that are kept, and returns how many: 0 at the end.
    fn read(&mut self, input: &mut File, most: usize) -> Result<usize, Fault> {
        loop {
            match input.read(&mut self.block[self.kept..self.kept + most]) {
                Ok(count) => return Ok(count),
                Err(error) if error.kind() == ErrorKind::Interrupted => {}
                Err(_) => return Err(Fault::ReadFailed),
            }
        }
    }

    fn run(&mut self, input: &mut File, output: &mut File) -> Result<(), Fault> {
        let mut total = 0;
        while total < SCRIPT {
            let count = self.read(input, BLOCK.min(SCRIPT - total))?;
            if count == 0 {
                return self.finish(output);
            }
            total += count;
            let filled = self.kept + count;
            let ended = self.block[self.kept..filled].iter().rposition(|byte| *byte == b'\n');
            let ends = ended.map_or(0, |place| self.kept + place + 1);
            self.carry_out(ends, output)?;
            self.kept = filled - ends;
            if self.kept > LINE {
                return Err(Fault::Malformed(self.lines + 1));
            }
            self.block.copy_within(ends..filled, 0);
        }
        match self.read(input, 1)? {
            0 => self.finish(output),
            _ => Err(Fault::TooLong),
        }
    }

    /// Carries out the last line, which has no line feed.
    fn finish(&mut self, output: &mut File) -> Result<(), Fault> {
        self.block[self.kept] = b'\n';
        self.carry_out(self.kept + 1, output)
    }
}

fn run(frames: u32) -> Result<(), Fault> {
    let machine = Machine::boot(frames).ok_or(Fault::NoMemory)?;
    let (block, replies) = (vec![0; LINE + BLOCK + ROOM], vec![0; REPLIES]);
    let mut session = Session { machine, block, kept: 0, lines: 0, replies };
    // std's own handles would copy what is read, and write at each line feed. Neither file is closed here.
    let [mut input, mut output] = [0, 1].map(|number| ManuallyDrop::new(unsafe { File::from_raw_fd(number) }));
    session.run(&mut input, &mut output)
}

fn end(text: &str, status: i32) -> ! {
    eprintln!("tower: {text}");
    exit(status)
}

fn main() {
    let words: Vec<String> = std::env::args().skip(1).collect();
    let frames = match words.iter().map(String::as_str).collect::<Vec<_>>()[..] {
        ["run"] => LEAST_FRAMES,
        ["run", "--frames", number] => number.parse().unwrap_or_else(|_| end("wants run [--frames N]", 2)),
        _ => end("wants run [--frames N]", 2),
    };
    if !(LEAST_FRAMES..=MOST_FRAMES).contains(&frames) {
        end("frames must be 16 to 4096", 2);
    }
    match run(frames) {
        Ok(()) => {}
        Err(Fault::NoMemory) => end("out of memory", 1),
        Err(Fault::Malformed(line)) => end(&format!("line {line} is malformed"), 2),
        Err(Fault::TooLong) => end("script is too long", 2),
        Err(Fault::ReadFailed) => end("read failed", 1),
        Err(Fault::WriteFailed) => end("write failed", 1),
    }
}
