//! The proved core of the repository as safe Rust types, without the standard library.
//!
//! [`Core`] has all calls and queries of the library that `crates/tower_c` builds. What they do is proved up
//! to that library's exports (docs/C-LIBRARY.md). This crate turns types into the library's numbers and back. It is not
//! proved; `cargo test` tests it. The feature `images` adds the images of `crates/tower_images`, their check and
//! `Core::restore`, `streams` adds `Core::save` and `Core::resume`, `blocks` cores over blocks of the caller's, and
//! `threads` adds `Core::share`, for threads that take the core and give it back. The crate's `unsafe` blocks are those of
//! `src/acts.rs`, `src/core.rs`, `src/memory.rs`, `src/images.rs`, `src/streams.rs`, `src/blocks.rs`, `src/heap.rs`,
//! `src/shared.rs` and `src/supply.rs`.
//!
//! # Calls
//!
//! ```
//! use tower::{BootFault, Call, Cause, Core, Event, Failure, Page, Pid, Reply, Size, Usage, Vaddr};
//!
//! assert_eq!(Core::boot(15).err(), Some(BootFault::BadSize));
//! let mut core = Core::boot(16)?;
//! let (page, addr) = (Page(0x40000), Vaddr(0x4000_0ffc));
//! assert_eq!(addr.page(), page);
//! core.map(Pid::ROOT, page, true)?;
//! assert_eq!(core.map(Pid::ROOT, page, true), Err(Failure::Refused(Cause::Mapped)));
//! core.store(Pid::ROOT, addr, Size::Four, 7)?.ignore(); // (no processor caches translations here)
//! assert_eq!(core.load(Pid::ROOT, addr, Size::Four)?, 7);
//! assert!(core.info(Pid::ROOT, page)?.dirty);
//! assert_eq!(core.quota(Pid::ROOT)?, Usage { quota: 15, used: 3, given: 0 });
//! let event = Event { cpu: 0, pid: Pid::ROOT, call: Call::Quota };
//! let told = core.step(&event);
//! assert_eq!(told.into_result()?, Reply::Quota { quota: 15, used: 3, given: 0 });
//! // (as lines of a script, and of its replies)
//! assert_eq!((event.to_string(), told.to_string()), ("0 0 quota".into(), "quota 15 3 0".into()));
//! // (a process's number is below 64, and causes have the numbers of docs/MACHINE.md)
//! assert_eq!((Pid::new(64), Pid::ROOT.number(), Cause::numbered(5)), (None, 0, Some(Cause::Mapped)));
//! # Ok::<(), Box<dyn std::error::Error>>(())
//! ```
//!
//! # Translations
//!
//! A store, an unmap, a protect, an accept and an exit can end translations that a processor caches. Each returns them as
//! [`Ended`], and the compiler warns if they are dropped. `Core::step_ending` does so for any event.
//!
//! ```
//! use tower::{Call, Core, Ended, Event, Page, Pid, Reply};
//!
//! fn invalidate(ended: Ended) -> u32 {
//!     match ended {
//!         Ended::Nothing => 0,
//!         Ended::Page { .. } => 1,  // INVLPG
//!         Ended::Pages { .. } => 2, // twice
//!         Ended::Space { .. } => 3, // all of an identifier
//!     }
//! }
//! let mut core = Core::boot(16)?;
//! core.map(Pid::ROOT, Page(0x40000), true)?;
//! assert_eq!(invalidate(core.protect(Pid::ROOT, Page(0x40000), true)?), 0);
//! let unmap = Event { cpu: 0, pid: Pid::ROOT, call: Call::Unmap { page: Page(0x40000) } };
//! assert_eq!(invalidate(core.ends(&unmap)), 1);
//! let (reply, ended) = core.step_ending(&unmap);
//! assert_eq!((reply, invalidate(ended)), (Reply::Done, 1));
//! core.map(Pid::ROOT, Page(0x40000), true)?;
//! assert_eq!(invalidate(core.unmap(Pid::ROOT, Page(0x40000))?), 1);
//! # Ok::<(), Box<dyn std::error::Error>>(())
//! ```
//!
//! # Sharing
//!
//! ```
//! use tower::{Core, Holder, Offer, Page, Pid, Size, Vaddr};
//!
//! let mut core = Core::boot(64)?;
//! let (giver, taker) = (core.spawn(Pid::ROOT, 10)?, core.spawn(Pid::ROOT, 10)?);
//! let (page, there, addr) = (Page(0x40000), Page(0x50000), Vaddr(0x5000_0000));
//! core.store(giver, Vaddr(0x4000_0000), Size::Four, 7)?.ignore();
//! core.offer(giver, page, taker, true)?;
//! core.withdraw(giver, page, taker)?;
//! core.offer(giver, page, taker, false)?;
//! assert_eq!(core.offers(giver).next(), Some(Offer { page, target: taker, write: false }));
//! assert_eq!(core.next_offer(giver, page, 0), core.offers(giver).next());
//! core.accept(taker, giver, page, there)?.ignore();
//! assert_eq!(core.load(taker, addr, Size::Four)?, 7);
//! assert_eq!(core.next_holder(giver, page, taker, Page(0)), Some(there));
//!
//! let mut lost = [Holder { pid: giver, page }; 4];
//! let count = core.take_back(giver, page, &mut lost)?;
//! assert_eq!(lost[..count], [Holder { pid: taker, page: there }]);
//! assert_eq!(core.load(taker, addr, Size::Four)?, 0); // (of a new page, which the load maps)
//! # Ok::<(), Box<dyn std::error::Error>>(())
//! ```
//!
//! # Memory of a process
//!
//! ```
//! use tower::{Core, Page, Pid, Vaddr};
//!
//! let mut core = Core::boot(64)?;
//! let (pid, addr, mut bytes) = (core.spawn(Pid::ROOT, 10)?, Vaddr(0x4000_0ff0), [0; 4]);
//! core.load_bytes(pid, addr, b"over the end of a page", false)?;
//! core.read_bytes(pid, addr, &mut bytes)?;
//! assert_eq!(&bytes, b"over");
//! let stopped = core.write_bytes(pid, addr, b"not").unwrap_err(); // (its pages are read-only)
//! assert_eq!((stopped.count, stopped.to_string().contains("page fault at 40000ff0")), (0, true));
//! core.write_bytes(pid, Vaddr(0x5000_0000), b"data")?; // (which maps a page)
//! assert_eq!(core.peek(pid, Vaddr(0x6000_0000), &mut bytes), 0); // (which maps none)
//!
//! let pages: Vec<Page> = core.pages(pid).map(|mapped| mapped.page).collect();
//! assert_eq!(pages, [Page(0x40000), Page(0x40001), Page(0x50000)]);
//! assert!(core.next_page(pid, Page(0x40002)).unwrap().dirty);
//! assert_eq!(core.clean(pid, Page(0x50000)), Some(true));
//! assert_eq!(core.dirty_pages(pid).count(), 2);
//! assert_eq!(core.next_dirty(pid, Page(0x40002)), None);
//! # Ok::<(), Box<dyn std::error::Error>>(())
//! ```
//!
//! # Frames and tables
//!
//! ```
//! use tower::{Access, Call, Core, Event, FRAME_BYTES, Page, Pid, Role, Size, Vaddr, WalkEnd};
//!
//! assert_eq!(tower::version(), tower::VERSION);
//! let mut core = Core::boot_wide(5000)?;
//! let (pid, addr, mut bytes) = (Pid::ROOT, Vaddr(0x4000_0000), [0; FRAME_BYTES]);
//! core.store(pid, addr, Size::Four, 7)?.ignore();
//! let directory = core.directory(pid).unwrap();
//! assert_eq!(core.role(directory), Some(Role::Directory { pid }));
//! let frame = core.walk(pid, addr, Access::Write).unwrap()?;
//! assert_eq!(core.role(frame), Some(Role::Page { count: 1 }));
//! assert!(core.copy_frame(frame, &mut bytes) && bytes[0] == 7);
//! assert_eq!(core.walk(pid, Vaddr(0), Access::Read), Some(Err(WalkEnd::Fault { code: 4 })));
//! assert_eq!(core.memory().len(), core.frames() as usize * FRAME_BYTES);
//! assert_eq!(core.container(pid).unwrap().used, 3);
//! let unmap = Event { cpu: 0, pid, call: Call::Unmap { page: Page(0x40000) } };
//! assert_eq!(core.may_write(&unmap, frame), Some(true));
//! # Ok::<(), Box<dyn std::error::Error>>(())
//! ```
//!
//! # Families
//!
//! ```
//! use tower::{Cause, Core, Failure, Pid};
//!
//! let mut core = Core::boot(64)?;
//! let parent = core.spawn(Pid::ROOT, 20)?;
//! let child = core.fork(parent, 9)?;
//! assert_eq!((*core.children(parent)).to_vec(), [child]);
//! assert_eq!(core.exit(parent), Err(Failure::Refused(Cause::HasChildren)));
//! assert_eq!((*core.end(parent)?).to_vec(), [child, parent]);
//! # Ok::<(), Box<dyn std::error::Error>>(())
//! ```
//!
//! # Runs
//!
//! ```
//! use tower::{Call, Cause, Core, Event, Page, Pid, Reply, UnequalLengths};
//!
//! let mut core = Core::boot(16)?;
//! let map = Event { cpu: 0, pid: Pid::ROOT, call: Call::Map { page: Page(0x40000), write: true } };
//! let mut replies = [Reply::Done; 3];
//! assert_eq!(core.run_until(&[map; 3], &mut replies), Ok(1)); // (the second is refused)
//! assert_eq!(replies, [Reply::Done, Reply::Refused(Cause::Mapped), Reply::Done]);
//! assert_eq!(core.run(&[map; 3], &mut replies), Ok(()));
//! assert_eq!(replies, [Reply::Refused(Cause::Mapped); 3]);
//! assert_eq!(core.run(&[map; 3], &mut replies[..2]), Err(UnequalLengths));
//! # Ok::<(), Box<dyn std::error::Error>>(())
//! ```
//!
//! # For a host of plugins
//!
//! `examples/tenants.rs` is one, with two tenants, a buffer that both see, and quotas. Four things differ from what a host
//! may expect:
//!
//! - **A stray address is no error within the user range.** A load or a store of a page that isn't mapped maps a page of
//!   zeros, if the quota allows it, and the tenant pays for it. Check the bounds of an offset before the access.
//!   [`Core::peek`] reads without mapping.
//! - **Each holder of a page may offer it to others.** If the plugins make their own offers, a buffer that one tenant
//!   gave another may therefore be a third's.
//! - **After [`Core::take_back`] a tenant may store at the same address.** Its store is done, in a page of its own that
//!   the access maps. The tenant gets no notice of the loss, so the host gives it one.
//! - **A [`Pid`] comes again** once its process has ended.
//!
//! A plugin that passes an event passes numbers: [`Numbers`] and `Event::try_from` check them.
#![no_std]
#![warn(missing_docs)]

mod acts;
mod alone;
#[cfg(feature = "blocks")]
mod blocks;
mod calls;
mod core;
#[cfg(feature = "heap")]
mod heap;
#[cfg(feature = "images")]
mod images;
mod memory;
mod numbers;
mod raw;
#[cfg(feature = "threads")]
mod shared;
#[cfg(feature = "streams")]
mod streams;
#[cfg(any(feature = "heap", feature = "blocks"))]
mod supply;
mod text;
mod words;

pub use acts::{DirtyPages, Holder, Offer, Offers, Processes};
#[cfg(feature = "blocks")]
pub use blocks::block_bytes;
pub use calls::{Info, Usage};
pub use core::{BootFault, Core, UnequalLengths, version};
#[cfg(feature = "images")]
pub use images::{CoreImageFault, ImageFault, NoMemory, RestoreFault, Verdict, check_image};
pub use memory::{Mapped, Pages, Stopped};
pub use numbers::{NoEvent, Numbers};
#[cfg(feature = "threads")]
pub use shared::{Absent, Cpu, Monitor, Report, ShareFault, Taken};
#[cfg(feature = "streams")]
pub use streams::{ResumeFault, SaveFault};
pub use words::{
    Access, Call, Cause, Container, Ended, Event, FRAME_BYTES, Failure, Frame, Page, Pid, Reply,
    Role, Size, Vaddr, WalkEnd,
};

/// The version of the header that this crate was written to; [`version`] is the library's.
///
/// Example: [frames and tables](crate#frames-and-tables).
pub const VERSION: u32 = 200;
