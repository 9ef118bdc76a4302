//! A host of plugins: two tenants with a quota each, and a buffer that both see. An offset that a plugin passes is never
//! trusted. A host of threads shares the core as `threads.rs` does.

use std::error::Error;
use std::fmt;
use std::sync::{Mutex, MutexGuard};
use tower::{BootFault, Core, Failure, Holder, Page, Pid, Stopped, Usage, Vaddr};

const PAGE: u32 = 4096;

/// Bytes of a tenant's space that its plugin may name, from a whole page on.
#[derive(Clone, Copy, Debug)]
struct Window {
    first: Page,
    pages: u32,
}

/// Each tenant's own bytes, and the buffer of both.
const OWN: Window = Window {
    first: Page(0x40000),
    pages: 4,
};
const BUFFER: Window = Window {
    first: Page(0x50000),
    pages: 2,
};

/// Why a plugin doesn't get what it requests.
#[derive(Debug, PartialEq, Eq)]
enum Denied {
    /// The bytes are not in the window, or the tenant no longer has it.
    Bounds,
    /// The core refused a byte. Those before it were copied.
    Stopped(Stopped),
}

impl fmt::Display for Denied {
    fn fmt(&self, to: &mut fmt::Formatter<'_>) -> fmt::Result {
        match self {
            Denied::Bounds => to.write_str("out of bounds"),
            Denied::Stopped(stopped) => stopped.fmt(to),
        }
    }
}

impl Error for Denied {}

impl Window {
    /// The pages in order.
    fn each(self) -> impl Iterator<Item = Page> {
        (self.first.0..self.first.0 + self.pages).map(Page)
    }

    /// The address of so many bytes at a plugin's offset. The core has no bounds of its own within the user range: a load
    /// or a store of a page that isn't mapped maps one of zeros, which the tenant's quota pays.
    fn address(self, offset: u64, count: usize) -> Result<Vaddr, Denied> {
        let end = u64::try_from(count)
            .ok()
            .and_then(|count| offset.checked_add(count));
        match (u32::try_from(offset), end) {
            (Ok(offset), Some(end)) if end <= u64::from(self.pages * PAGE) => {
                Ok(Vaddr(self.first.0 * PAGE + offset))
            }
            _ => Err(Denied::Bounds),
        }
    }
}

struct Host {
    core: Mutex<Core<'static>>,
}

/// A process of the core. It owns its number, and ends with it: the next tenant may get the same number.
struct Tenant<'a> {
    host: &'a Host,
    pid: Pid,
    buffer: Option<Window>,
}

impl Host {
    fn new(frames: u32) -> Result<Host, BootFault> {
        Ok(Host {
            core: Mutex::new(Core::boot(frames)?),
        })
    }

    fn core(&self) -> MutexGuard<'_, Core<'static>> {
        self.core.lock().expect("no thread panics with the core")
    }

    /// Makes a tenant that never costs more than so many frames: its directory, its tables and its pages.
    fn tenant(&self, quota: u32) -> Result<Tenant<'_>, Failure> {
        let pid = self.core().spawn(Pid::ROOT, quota)?;
        Ok(Tenant {
            host: self,
            pid,
            buffer: None,
        })
    }

    /// Gives both the buffer, all of it or none. Whoever has a page may offer it to others, so the host makes all offers.
    fn share(&self, giver: &mut Tenant, taker: &mut Tenant, write: bool) -> Result<(), Failure> {
        let mut core = self.core();
        for page in BUFFER.each() {
            if let Err(failure) = share_page(&mut core, giver, taker.pid, page, write) {
                for before in BUFFER.each().take_while(|it| *it < page) {
                    core.unmap(taker.pid, before)?.ignore(); // (no processor caches translations here)
                    if giver.buffer.is_none() {
                        core.unmap(giver.pid, before)?.ignore();
                    }
                }
                return Err(failure);
            }
        }
        (giver.buffer, taker.buffer) = (Some(BUFFER), Some(BUFFER));
        Ok(())
    }

    /// Takes the buffer back. The core lets the other tenant store at the same addresses again, into pages of its own.
    /// Its plugin would not notice, and therefore loses the window too.
    fn take_back(&self, giver: &Tenant, taker: &mut Tenant) -> Result<(), Failure> {
        let mut core = self.core();
        for page in BUFFER.each() {
            let mut lost = [Holder {
                pid: Pid::ROOT,
                page,
            }; 64];
            while core
                .take_back(giver.pid, page, &mut lost)
                .map_err(Failure::Refused)?
                == lost.len()
            {}
        }
        taker.buffer = None;
        Ok(())
    }
}

/// Maps a page unless the giver has the buffer, offers it and accepts it, or does none of these.
fn share_page(
    core: &mut Core,
    giver: &Tenant,
    taker: Pid,
    page: Page,
    write: bool,
) -> Result<(), Failure> {
    let is_new = giver.buffer.is_none();
    if is_new {
        core.map(giver.pid, page, true)?;
    }
    let shared = core
        .offer(giver.pid, page, taker, write)
        .and_then(|()| core.accept(taker, giver.pid, page, page));
    match shared {
        Ok(ended) => ended.ignore(),
        Err(failure) => {
            if is_new {
                core.unmap(giver.pid, page)?.ignore(); // (its offer goes with it)
            } else {
                let _ = core.withdraw(giver.pid, page, taker); // (if it was made)
            }
            return Err(failure);
        }
    }
    Ok(())
}

impl Tenant<'_> {
    fn write(&self, window: Option<Window>, offset: u64, bytes: &[u8]) -> Result<(), Denied> {
        let addr = window.ok_or(Denied::Bounds)?.address(offset, bytes.len())?;
        self.host
            .core()
            .write_bytes(self.pid, addr, bytes)
            .map_err(Denied::Stopped)
    }

    fn read(&self, window: Option<Window>, offset: u64, bytes: &mut [u8]) -> Result<(), Denied> {
        let addr = window.ok_or(Denied::Bounds)?.address(offset, bytes.len())?;
        self.host
            .core()
            .read_bytes(self.pid, addr, bytes)
            .map_err(Denied::Stopped)
    }

    fn usage(&self) -> Result<Usage, Failure> {
        self.host.core().quota(self.pid)
    }
}

impl Drop for Tenant<'_> {
    fn drop(&mut self) {
        self.host
            .core()
            .end(self.pid)
            .expect("a tenant is live until it is dropped");
    }
}

fn main() -> Result<(), Box<dyn Error>> {
    let host = Host::new(64)?;
    let (mut first, mut second) = (host.tenant(10)?, host.tenant(8)?);
    host.share(&mut first, &mut second, false)?;
    first.write(first.buffer, 4090, b"hello across pages")?;
    let mut got = [0; 18];
    second.read(second.buffer, 4090, &mut got)?;
    println!("the second reads: {}", std::str::from_utf8(&got)?);
    for (what, denied) in [
        ("writes the buffer", second.write(second.buffer, 0, b"x")),
        (
            "names a byte after the buffer",
            second.read(second.buffer, 8192, &mut [0]),
        ),
        (
            "writes more than its quota has",
            second.write(Some(OWN), 0, &[7; 16384]),
        ),
    ] {
        println!("the second {what}: {}", denied.expect_err("it may not"));
    }
    println!("the second: {:?}", second.usage()?);
    host.take_back(&first, &mut second)?;
    println!(
        "the second has the buffer still: {}",
        second.buffer.is_some()
    );
    println!("the first: {:?}", first.usage()?);
    Ok(())
}

#[cfg(test)]
mod tests {
    use super::*;
    use tower::Cause;

    /// A host with two tenants that share the buffer.
    fn with_both(write: bool, test: impl for<'h> FnOnce(&'h Host, Tenant<'h>, Tenant<'h>)) {
        let host = Host::new(64).unwrap();
        let (mut first, mut second) = (host.tenant(10).unwrap(), host.tenant(8).unwrap());
        host.share(&mut first, &mut second, write).unwrap();
        test(&host, first, second);
    }

    #[test]
    fn both_see_the_buffer() {
        with_both(true, |_, first, second| {
            let mut got = [0; 2];
            first.write(first.buffer, 4095, b"ab").unwrap();
            second.read(second.buffer, 4095, &mut got).unwrap();
            assert_eq!(&got, b"ab");
            second.write(second.buffer, 4096, b"c").unwrap();
            first.read(first.buffer, 4095, &mut got).unwrap();
            assert_eq!(&got, b"ac");
        });
    }

    #[test]
    fn a_buffer_is_shared_again_and_with_a_third() {
        with_both(true, |host, mut first, mut second| {
            let mut third = host.tenant(8).unwrap();
            first.write(first.buffer, 0, b"kept").unwrap();
            host.take_back(&first, &mut second).unwrap();
            for taker in [&mut second, &mut third] {
                let mut got = [0; 4];
                host.share(&mut first, taker, false).unwrap();
                taker.read(taker.buffer, 0, &mut got).unwrap();
                assert_eq!(&got, b"kept");
            }
        });
    }

    #[test]
    fn a_buffer_that_can_not_be_shared_again_stays() {
        with_both(true, |host, mut first, second| {
            let mut got = [0; 4];
            first.write(first.buffer, 0, b"kept").unwrap();
            let mut poor = host.tenant(3).unwrap(); // (room for a table and one page of two)
            let refused = host.share(&mut first, &mut poor, true);
            assert_eq!(refused, Err(Failure::Refused(Cause::Quota)));
            assert_eq!(poor.usage().unwrap().used, 1);
            second.read(second.buffer, 0, &mut got).unwrap();
            assert_eq!(&got, b"kept");
            first.read(first.buffer, 0, &mut got).unwrap();
            assert_eq!(&got, b"kept");
        });
    }

    #[test]
    fn a_right_to_read_is_none_to_write() {
        with_both(false, |_, _, second| {
            let failure = Failure::Fault {
                addr: Vaddr(0x5000_0000),
                code: 7,
            };
            let stopped = Stopped { count: 0, failure };
            assert_eq!(
                second.write(second.buffer, 0, b"x"),
                Err(Denied::Stopped(stopped))
            );
        });
    }

    #[test]
    fn an_offset_out_of_bounds_costs_nothing() {
        with_both(true, |_, first, _| {
            let before = first.usage().unwrap();
            for offset in [
                8192,
                8191,
                0x1000_0000,
                u64::from(u32::MAX),
                1 << 32,
                u64::MAX,
            ] {
                assert_eq!(
                    first.read(first.buffer, offset, &mut [0; 2]),
                    Err(Denied::Bounds)
                );
                assert_eq!(
                    first.write(first.buffer, offset, b"xy"),
                    Err(Denied::Bounds)
                );
            }
            assert_eq!(first.usage().unwrap(), before);
        });
    }

    #[test]
    fn without_bounds_a_stray_read_maps_a_page() {
        with_both(true, |host, first, _| {
            let (before, stray) = (first.usage().unwrap(), Vaddr(0x6000_2000));
            assert_eq!(host.core().peek(first.pid, stray, &mut [0; 4]), 0);
            assert_eq!(first.usage().unwrap(), before);
            host.core()
                .read_bytes(first.pid, stray, &mut [0; 4])
                .unwrap();
            assert_eq!(first.usage().unwrap().used, before.used + 2); // the page and its table
        });
    }

    #[test]
    fn a_quota_stops_its_tenant_only() {
        with_both(true, |_, first, second| {
            let Err(Denied::Stopped(stopped)) = second.write(Some(OWN), 0, &[7; 16384]) else {
                panic!("the quota has no room for four pages");
            };
            assert_eq!(
                (stopped.count, stopped.failure),
                (12288, Failure::Refused(Cause::Quota))
            );
            let usage = second.usage().unwrap();
            assert_eq!((usage.used, usage.quota), (8, 8));
            first.write(Some(OWN), 0, &[7; 16384]).unwrap();
        });
    }

    #[test]
    fn a_buffer_is_shared_whole_or_not_at_all() {
        let host = Host::new(64).unwrap();
        let (mut first, mut small) = (host.tenant(10).unwrap(), host.tenant(3).unwrap());
        let before = (first.usage().unwrap(), small.usage().unwrap());
        assert_eq!(
            host.share(&mut first, &mut small, true),
            Err(Failure::Refused(Cause::Quota))
        );
        assert_eq!((first.usage().unwrap(), small.usage().unwrap()), before);
        assert!(first.buffer.is_none() && small.buffer.is_none());
    }

    #[test]
    fn who_loses_the_buffer_loses_the_window() {
        with_both(true, |host, first, mut second| {
            host.take_back(&first, &mut second).unwrap();
            assert_eq!(second.write(second.buffer, 0, b"x"), Err(Denied::Bounds));
            second.write(Some(BUFFER), 0, b"x").unwrap(); // (what the core lets it do: a page of its own)
            let mut got = [1];
            first.read(first.buffer, 0, &mut got).unwrap();
            assert_eq!(got, [0]);
        });
    }

    #[test]
    fn a_number_comes_again() {
        with_both(true, |host, first, _second| {
            let number = first.pid;
            drop(first);
            let next = host.tenant(5).unwrap();
            assert_eq!(next.pid, number);
            assert_eq!(host.core().pages(next.pid).count(), 0);
        });
    }
}
