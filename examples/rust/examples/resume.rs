//! resume whole | stop FILE | go FILE: a sandbox with two tenants that is stopped in the middle of a run, and goes on in
//! another process. `stop` runs the first half and writes the core's image to a file. `go` makes a core of that file and
//! runs the second half. `whole` runs both. `go` and `whole` print the same lines.
//!
//! The sandbox is process 0. Its own page has the next step, its random state and a digest of all replies. So the image
//! is the whole of it. No offer may be pending at the cut, since an image has none.

use std::error::Error;
use std::hash::{DefaultHasher, Hash, Hasher};
use std::{env, fs};
use tower::{Call, Core, Event, Page, Pid, Size, Vaddr};

const FRAMES: u32 = 128;
const QUOTA: u32 = 50;
const STEPS: u64 = 20_000;
const CUT: u64 = 9_001;
const BOOK: Vaddr = Vaddr(0x4000_0000);
const OWN: u32 = 0x40008;
const PAGES: u32 = 40;

/// What the sandbox keeps, in its own page of the core.
#[derive(Default)]
struct Book {
    step: u64,
    random: u64,
    digest: u64,
}

impl Book {
    fn read(core: &mut Core) -> Result<Book, tower::Stopped> {
        let mut bytes = [0; 24];
        core.read_bytes(Pid::ROOT, BOOK, &mut bytes)?;
        let number = |at: usize| u64::from_le_bytes(bytes[at..at + 8].try_into().unwrap());
        let (step, random, digest) = (number(0), number(8), number(16));
        Ok(Book {
            step,
            random,
            digest,
        })
    }

    fn write(&self, core: &mut Core) -> Result<(), tower::Stopped> {
        let bytes = [self.step, self.random, self.digest]
            .map(u64::to_le_bytes)
            .concat();
        core.write_bytes(Pid::ROOT, BOOK, &bytes)
    }

    /// A number below `end`.
    fn below(&mut self, end: u32) -> u32 {
        self.random = self
            .random
            .wrapping_mul(6_364_136_223_846_793_005)
            .wrapping_add(1);
        ((self.random >> 32) * u64::from(end) >> 32) as u32
    }

    fn page(&mut self) -> Page {
        Page(OWN + self.below(PAGES))
    }

    /// Makes a call, and takes its reply into the digest.
    fn run(&mut self, core: &mut Core, pid: Pid, call: Call) {
        let reply = core.step(&Event { cpu: 0, pid, call });
        let mut hasher = DefaultHasher::new();
        (self.digest, reply.to_string()).hash(&mut hasher);
        self.digest = hasher.finish();
    }

    /// The next call of a tenant: mostly loads and stores, some of which run into its quota.
    fn call(&mut self) -> Call {
        let page = self.page();
        let (addr, size) = (Vaddr(page.0 << 12 | self.below(4096)), Size::Four);
        let (write, value) = (self.below(2) == 1, self.random as u32);
        match self.below(12) {
            0 => Call::Map { page, write },
            1 => Call::Unmap { page },
            2 => Call::Protect { page, write },
            3 => Call::Info { page },
            4 => Call::Quota,
            5..8 => Call::Load { addr, size },
            _ => Call::Store { addr, size, value },
        }
    }

    /// One tenant gives the other a page of its own, within one step.
    fn give(&mut self, core: &mut Core, from: Pid, to: Pid) {
        let (page, write) = (self.page(), self.below(2) == 1);
        let accepted = self.page();
        let (giver, giver_page, target) = (from, page, to);
        self.run(
            core,
            from,
            Call::Offer {
                page,
                target,
                write,
            },
        );
        self.run(
            core,
            to,
            Call::Accept {
                giver,
                giver_page,
                page: accepted,
            },
        );
        self.run(core, from, Call::Withdraw { page, target });
    }

    fn step(&mut self, core: &mut Core, tenants: [Pid; 2]) {
        let first = self.below(2) as usize;
        if self.below(10) == 0 {
            self.give(core, tenants[first], tenants[1 - first]);
        } else {
            let call = self.call();
            self.run(core, tenants[first], call);
        }
        self.step += 1;
    }
}

fn tenants() -> [Pid; 2] {
    [1, 2].map(|number| Pid::new(number).expect("the number of a process"))
}

fn begin() -> Result<Core<'static>, Box<dyn Error>> {
    let mut core = Core::boot(FRAMES)?;
    for tenant in tenants() {
        assert_eq!(core.spawn(Pid::ROOT, QUOTA)?, tenant);
    }
    Book::default().write(&mut core)?;
    Ok(core)
}

/// Runs on from the step that the sandbox's page names.
fn go_on(core: &mut Core, end: u64) -> Result<(), Box<dyn Error>> {
    let mut book = Book::read(core)?;
    while book.step < end {
        book.step(core, tenants());
    }
    book.write(core)?;
    Ok(())
}

/// Prints the digest of all replies, and of each tenant its charge and a digest of its pages.
fn tell(core: &mut Core) -> Result<(), Box<dyn Error>> {
    let book = Book::read(core)?;
    println!("steps {}, replies {:016x}", book.step, book.digest);
    for tenant in tenants() {
        let container = core.container(tenant).ok_or("the tenant is live")?;
        let mapped: Vec<_> = core.pages(tenant).collect();
        let mut hasher = DefaultHasher::new();
        for page in &mapped {
            let mut bytes = [0; 4096];
            core.read_bytes(tenant, Vaddr(page.page.0 << 12), &mut bytes)?;
            (
                page.page.0,
                page.write,
                page.may,
                page.dirty,
                page.holders,
                bytes,
            )
                .hash(&mut hasher);
        }
        let (used, quota, digest) = (container.used, container.quota, hasher.finish());
        println!(
            "tenant {}: used {used} of {quota}, {} pages {digest:016x}",
            tenant.number(),
            mapped.len()
        );
    }
    Ok(())
}

fn main() -> Result<(), Box<dyn Error>> {
    let words: Vec<String> = env::args().skip(1).collect();
    let words: Vec<&str> = words.iter().map(String::as_str).collect();
    let mut core = match words[..] {
        ["whole"] | ["stop", _] => begin()?,
        ["go", file] => Core::restore(&fs::read(file)?)?,
        _ => return Err("resume whole | stop FILE | go FILE".into()),
    };
    if let ["stop", file] = words[..] {
        go_on(&mut core, CUT)?;
        fs::write(file, core.image()?)?;
        return Ok(());
    }
    go_on(&mut core, STEPS)?;
    tell(&mut core)
}
