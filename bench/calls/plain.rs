//! bench/calls/plain.rs: the call through the lock in plain Rust, for comparison. It has std's Mutex round a core that
//! walks two words and stores, a log of all calls, and a left-right writer that publishes a report on them.
//!
//!     rustc -O --edition 2021 bench/calls/plain.rs -o plain && ./plain
//!
//! It makes the calls of program/main.rt.in, and prints the same lines: the best of RUNS of each measurement, in
//! nanoseconds for 40,000 calls. Nothing of it is proved.
#![allow(dead_code)]
use std::cell::UnsafeCell;
use std::sync::atomic::{AtomicBool, AtomicU64, AtomicUsize, Ordering::SeqCst};
use std::sync::Mutex;
use std::thread;
use std::time::Instant;

const CALLS: usize = 40_000;
const RUNS: usize = 15;
const FRAMES: usize = 64;
const WORDS: usize = 1024;
const PAGE: u32 = 0x4000_0000;
const PRESENT: u32 = 1;
const WRITABLE: u32 = 2;
const USED: u32 = 32 + 64;

#[derive(Clone, Copy)]
enum Call {
    Load { addr: u32, size: u32 },
    Store { addr: u32, size: u32, value: u32 },
    Quota,
}

#[derive(Clone, Copy)]
enum Reply {
    Done,
    Value(u32),
    Quota { quota: u32, used: u32, given: u32 },
    Fault { addr: u32, code: u8 },
    Refused(u8),
}

#[derive(Clone, Copy)]
struct Event {
    cpu: u8,
    pid: u8,
    call: Call,
}

#[derive(Clone, Copy)]
struct Entry {
    cpu: u8,
    nth: usize,
    pid: u8,
    call: Call,
    reply: Reply,
    used_after: u32,
}

#[derive(Clone, Copy)]
struct Row {
    parent: u8,
    quota: u32,
    used: u32,
    given: u32,
}

type Rows = [Option<Row>; 64];

fn first_rows() -> Rows {
    let mut rows = [None; 64];
    rows[0] = Some(Row { parent: 0, quota: FRAMES as u32 - 1, used: 3, given: 0 });
    rows
}

/// A memory, the directory of each process, and what each is charged.
struct Core {
    memory: Vec<u32>,
    directories: [Option<u32>; 64],
    rows: Rows,
}

impl Core {
    /// Returns a core whose process 0 has one page that it may write.
    fn boot() -> Core {
        let mut memory = vec![0; FRAMES * WORDS];
        memory[WORDS + (PAGE >> 22) as usize] = 2 << 12 | PRESENT | WRITABLE;
        memory[2 * WORDS] = 3 << 12 | PRESENT | WRITABLE;
        let mut directories = [None; 64];
        directories[0] = Some(1);
        Core { memory, directories, rows: first_rows() }
    }

    /// Sets accessed and dirty, and returns where the bytes lie; None if they are not all of one page with that right.
    fn place(&mut self, pid: u8, addr: u32, size: u32, needs: u32) -> Option<usize> {
        if !(0x4000_0000..0xf000_0000).contains(&addr) || addr % 4096 + size > 4096 {
            return None;
        }
        let directory = self.directories[usize::from(pid)]? as usize;
        let table = self.memory[directory * WORDS + (addr >> 22) as usize];
        if table & PRESENT == 0 {
            return None;
        }
        let at = (table >> 12) as usize * WORDS + (addr >> 12 & 1023) as usize;
        let word = self.memory[at];
        if word & needs != needs {
            return None;
        }
        if word & USED != USED {
            self.memory[at] = word | USED;
        }
        Some(((word >> 12) as usize * 4096) + (addr & 4095) as usize)
    }

    fn step(&mut self, event: &Event) -> Reply {
        match event.call {
            Call::Load { addr, size } => match self.place(event.pid, addr, size, PRESENT) {
                Some(at) if at % 4 == 0 && size == 4 => Reply::Value(self.memory[at / 4]),
                Some(_) => Reply::Refused(1),
                None => Reply::Fault { addr, code: 4 },
            },
            Call::Store { addr, size, value } => match self.place(event.pid, addr, size, PRESENT | WRITABLE) {
                Some(at) if at % 4 == 0 && size == 4 => {
                    self.memory[at / 4] = value;
                    Reply::Done
                }
                Some(_) => Reply::Refused(1),
                None => Reply::Fault { addr, code: 6 },
            },
            Call::Quota => match self.rows[usize::from(event.pid)] {
                Some(row) => Reply::Quota { quota: row.quota, used: row.used, given: row.given },
                None => Reply::Refused(0),
            },
        }
    }

    fn charge(&self, pid: u8) -> u32 {
        self.rows[usize::from(pid)].map_or(0, |row| row.used)
    }
}

/// What is published: a report on that many entries.
#[derive(Clone, Copy)]
struct Shown {
    rows: Rows,
    count: usize,
}

impl Shown {
    fn catch_up(&mut self, log: &[Entry]) {
        for entry in &log[self.count..] {
            if let (Reply::Done | Reply::Value(_), Some(row)) = (entry.reply, &mut self.rows[usize::from(entry.pid)]) {
                row.used = entry.used_after;
            }
        }
        self.count = log.len();
    }
}

#[repr(align(128))]
struct Apart<T>(T);

/// The two copies, which of them readers read, and an epoch for each reader, odd while it reads.
struct Board {
    side: Apart<AtomicUsize>,
    epochs: [Apart<AtomicU64>; 2],
    copies: [Apart<UnsafeCell<Shown>>; 2],
}

// The writer changes a copy only when no reader has it.
unsafe impl Sync for Board {}

impl Board {
    fn new() -> Board {
        let shown = Shown { rows: first_rows(), count: 0 };
        Board {
            side: Apart(AtomicUsize::new(0)),
            epochs: [0, 1].map(|_| Apart(AtomicU64::new(0))),
            copies: [0, 1].map(|_| Apart(UnsafeCell::new(shown))),
        }
    }

    fn read(&self, reader: usize) -> Shown {
        let epoch = &self.epochs[reader].0;
        epoch.fetch_add(1, SeqCst);
        let shown = unsafe { *self.copies[self.side.0.load(SeqCst)].0.get() };
        epoch.fetch_add(1, SeqCst);
        shown
    }
}

/// The data under the lock.
struct Locked<'a> {
    core: Core,
    log: Vec<Entry>,
    counts: [usize; 8],
    board: &'a Board,
    last: Vec<u64>,
}

impl Locked<'_> {
    /// Waits until the readers have left the spare copy, brings it up to the log, and shows it.
    fn publish(&mut self) {
        let spare = 1 - self.board.side.0.load(SeqCst);
        for (seen, epoch) in self.last.iter().zip(&self.board.epochs) {
            while seen % 2 == 1 && epoch.0.load(SeqCst) == *seen {
                thread::yield_now();
            }
        }
        unsafe { (*self.board.copies[spare].0.get()).catch_up(&self.log) };
        self.board.side.0.store(spare, SeqCst);
        for (seen, epoch) in self.last.iter_mut().zip(&self.board.epochs) {
            *seen = epoch.0.load(SeqCst);
        }
    }

    fn call(&mut self, event: &Event, calls: usize, seen: usize) -> Option<(Reply, usize)> {
        if seen > self.log.len() || calls != self.counts[usize::from(event.cpu)] {
            return None;
        }
        self.log.try_reserve(1).ok()?;
        let reply = self.core.step(event);
        let used_after = self.core.charge(event.pid);
        let Event { cpu, pid, call } = *event;
        self.log.push(Entry { cpu, nth: calls, pid, call, reply, used_after });
        self.counts[usize::from(cpu)] += 1;
        self.publish();
        Some((reply, self.log.len()))
    }
}

fn event(cpu: u8) -> Event {
    Event { cpu, pid: 0, call: Call::Store { addr: PAGE, size: 4, value: 7 } }
}

/// Makes the calls of one CPU.
fn work(lock: &Mutex<Locked>, cpu: u8, calls: usize) {
    let mut seen = 0;
    for made in 0..calls {
        let answer = lock.lock().unwrap().call(std::hint::black_box(&event(cpu)), made, seen);
        let (_, now) = answer.expect("a call");
        seen = now;
    }
}

/// Makes all calls by that many CPUs, while that many monitors report. Returns the nanoseconds, and how many reports
/// were taken.
fn measured(cpus: usize, monitors: usize) -> (u64, u64) {
    let board = Board::new();
    let locked = Locked { core: Core::boot(), log: Vec::new(), counts: [0; 8], board: &board, last: vec![0; monitors] };
    let (lock, done, reports) = (Mutex::new(locked), AtomicBool::new(false), AtomicU64::new(0));
    let start = Instant::now();
    thread::scope(|scope| {
        for reader in 0..monitors {
            let (board, done, reports) = (&board, &done, &reports);
            scope.spawn(move || {
                let mut taken = 0;
                while !done.load(SeqCst) {
                    taken += u64::from(board.read(reader).rows[0].is_some());
                }
                reports.fetch_add(taken, SeqCst);
            });
        }
        let callers: Vec<_> = (0..cpus).map(|cpu| scope.spawn({
            let lock = &lock;
            move || work(lock, cpu as u8, CALLS / cpus)
        })).collect();
        for caller in callers {
            caller.join().unwrap();
        }
        done.store(true, SeqCst);
    });
    let took = start.elapsed().as_nanos() as u64;
    assert_eq!(lock.lock().unwrap().log.len(), CALLS);
    (took, reports.load(SeqCst))
}

fn main() {
    for monitors in [0, 2] {
        for cpus in [1, 2, 4, 8] {
            let (took, reports) = (0..RUNS).map(|_| measured(cpus, monitors)).min().unwrap();
            match monitors {
                0 => println!("cpus {cpus} {took}"),
                _ => println!("cpus {cpus} monitors {monitors} {took}\nreports {cpus} {reports}"),
            }
        }
    }
}
