//! The machine of docs/MACHINE.md in plain Rust, tuned by hand: directories and tables are words of a simulated memory,
//! as a processor walks them. Nothing of it is proved.
//!
//! Three things keep the usual paths short. The words of frame 0 are all 0, so that a walk over no table, or over the
//! directory of no process, ends at a word that is not present. A process that is not live has no room. A free frame
//! that is known to hold zeros is not zeroed again.
use std::alloc::{alloc_zeroed, Layout};
use std::ptr;

pub const PROCESSES: usize = 64;
pub const LEAST_FRAMES: u32 = 16;
pub const MOST_FRAMES: u32 = 4096;
const OFFERS: usize = 32;
const FRAME: u32 = 4096;
const FIRST_PAGE: u32 = 0x40000;
const PAGES: u32 = 0xb0000;

const PRESENT: u32 = 1;
const WRITE: u32 = 2;
const USER: u32 = 4;
const ACCESSED: u32 = 0x20;
const DIRTY: u32 = 0x40;
const MAY: u32 = 0x200;
const LAZY: u32 = 0x400;
/// The process may write now. In the word of a page that has a frame, WRITE is the same.
const GRANTED: u32 = 0x800;
/// The bits of a word that name a frame.
const NAMED: u32 = 0xffff_f000;
const LEADS: u32 = PRESENT | WRITE | USER;
/// In the list of free frames: the frame holds zeros.
const ZEROS: u32 = 1;

macro_rules! causes {
    ($($cause:ident)*) => {
        #[derive(Clone, Copy)]
        pub enum Cause { $($cause),* }

        /// By cause.
        pub const NAMES: [&str; 16] = [$(stringify!($cause)),*];
    };
}
causes!(NoProcess BadPage NotMapped Mapped Quota Rights SelfOffer NoTarget OfferPending TooManyOffers NoOffer TableFull
    BadQuota HasChildren RootExit TooSmall);

/// Why an access isn't made.
pub enum Stop {
    Refused(Cause),
    Fault { address: u32, code: u8 },
}

/// The room is the quota without what the process uses and gives.
#[derive(Clone, Copy)]
struct Entry {
    quota: u32,
    used: u32,
    room: u32,
    children: u32,
    parent: u32,
    offers: u32,
}

const DEAD: Entry = Entry { quota: 0, used: 0, room: 0, children: 0, parent: 0, offers: 0 };

/// A frame is named by the address of its first byte, as in words.
#[repr(C)]
pub struct Machine {
    memory: [u8; MOST_FRAMES as usize * FRAME as usize],
    /// Of each process; 0 if it is not live.
    directories: [u32; PROCESSES],
    entries: [Entry; PROCESSES],
    /// Each a page, a target and a right (`offer_of`). As many of a process are pending as its entry says.
    offers: [[u32; OFFERS]; PROCESSES],
    /// By frame: the slots that hold a page, the pages of a table, or the next in the list of free frames.
    counts: [u32; MOST_FRAMES as usize],
    /// The first free frame, with ZEROS if that is so.
    free: u32,
    /// A bit for each process that is live, and for each that has offers.
    live: u64,
    offering: u64,
}

#[inline(always)]
fn is_user(page: u32) -> bool {
    page.wrapping_sub(FIRST_PAGE) < PAGES
}

/// Whether all bytes of an access lie in one page.
#[inline(always)]
fn is_in_page(address: u32, size: u32) -> bool {
    address & (FRAME - 1) <= FRAME - size
}

#[inline(always)]
fn offer_of(page: u32, target: usize, write: bool) -> u32 {
    page << 7 | (target as u32) << 1 | u32::from(write)
}

/// The word of a page that has no frame yet.
#[inline(always)]
fn lazy(write: bool) -> u32 {
    PRESENT | USER | MAY | LAZY | if write { GRANTED } else { 0 }
}

impl Machine {
    /// Returns a machine of so many frames as it boots, or None if there is no memory for it.
    pub fn boot(frames: u32) -> Option<Box<Machine>> {
        // All of a machine is numbers, which may be 0.
        let place = unsafe { alloc_zeroed(Layout::new::<Machine>()) }.cast::<Machine>();
        if place.is_null() {
            return None;
        }
        let mut machine = unsafe { Box::from_raw(place) };
        for frame in (1..frames).rev() {
            machine.put_back(frame * FRAME, ZEROS);
        }
        machine.directories[0] = machine.take_zeros();
        machine.entries[0] = Entry { quota: frames - 1, used: 1, room: frames - 2, ..DEAD };
        machine.live = 1;
        Some(machine)
    }

    // Words, counts and frames. Each frame here is in a word that the machine has written, and lies in its memory. Each
    // process is below 64, as it was read.

    #[inline(always)]
    fn word(&self, at: u32) -> u32 {
        debug_assert!(at as usize + 4 <= self.memory.len());
        u32::from_le(unsafe { self.memory.as_ptr().add(at as usize).cast::<u32>().read_unaligned() })
    }

    #[inline(always)]
    fn put(&mut self, at: u32, word: u32) {
        debug_assert!(at as usize + 4 <= self.memory.len());
        unsafe { self.memory.as_mut_ptr().add(at as usize).cast::<u32>().write_unaligned(word.to_le()) }
    }

    #[inline(always)]
    fn count(&mut self, frame: u32) -> &mut u32 {
        debug_assert!(frame / FRAME < MOST_FRAMES);
        unsafe { self.counts.get_unchecked_mut((frame / FRAME) as usize) }
    }

    #[inline(always)]
    fn directory(&self, process: usize) -> u32 {
        debug_assert!(process < PROCESSES);
        unsafe { *self.directories.get_unchecked(process) }
    }

    #[inline(always)]
    fn entry(&mut self, process: usize) -> &mut Entry {
        debug_assert!(process < PROCESSES);
        unsafe { self.entries.get_unchecked_mut(process) }
    }

    /// A free frame, with ZEROS if it holds them. The quotas leave one.
    #[inline(always)]
    fn take(&mut self) -> u32 {
        let first = self.free;
        self.free = *self.count(first);
        first
    }

    #[inline(always)]
    fn take_zeros(&mut self) -> u32 {
        let first = self.take();
        let frame = first & NAMED;
        if first & ZEROS == 0 {
            unsafe { ptr::write_bytes(self.memory.as_mut_ptr().add(frame as usize), 0, FRAME as usize) };
        }
        frame
    }

    #[inline(always)]
    fn put_back(&mut self, frame: u32, zeros: u32) {
        *self.count(frame) = self.free;
        self.free = frame | zeros;
    }

    // Pages.

    /// Where a directory has the word of a page's table. The page is below 2^20.
    #[inline(always)]
    fn slot(&self, process: usize, page: u32) -> u32 {
        self.directory(process) + (page >> 10) * 4
    }

    /// Where the word of a page is: in frame 0 if there is no table for it.
    #[inline(always)]
    fn place(&self, process: usize, page: u32) -> u32 {
        (self.word(self.slot(process, page)) & NAMED) + (page & 1023) * 4
    }

    /// Where the word of a mapped page is, and the word; otherwise the cause against the page.
    #[inline(always)]
    fn mapped(&self, process: usize, page: u32) -> Result<(u32, u32), Cause> {
        if is_user(page) {
            let place = self.place(process, page);
            let word = self.word(place);
            if word != 0 {
                return Ok((place, word));
            }
        }
        Err(self.not_mapped(process, page))
    }

    #[cold]
    fn not_mapped(&self, process: usize, page: u32) -> Cause {
        match (self.directory(process), is_user(page)) {
            (0, _) => Cause::NoProcess,
            (_, false) => Cause::BadPage,
            _ => Cause::NotMapped,
        }
    }

    /// The cause against a page that can't be mapped.
    #[cold]
    fn not_free(&self, process: usize, page: u32) -> Cause {
        match self.not_mapped(process, page) {
            Cause::NotMapped if self.word(self.place(process, page)) != 0 => Cause::Mapped,
            Cause::NotMapped => Cause::Quota,
            cause => cause,
        }
    }

    /// Whether a page of the user range can be mapped: it isn't, and there is room for it.
    #[inline(always)]
    fn is_free(&mut self, process: usize, page: u32) -> bool {
        let leads = self.word(self.slot(process, page));
        self.word((leads & NAMED) + (page & 1023) * 4) == 0 && self.entry(process).room >= 2 - (leads & PRESENT)
    }

    /// Maps a page that is free, and returns where its word is.
    #[inline(always)]
    fn put_page(&mut self, process: usize, page: u32, word: u32) -> u32 {
        let slot = self.slot(process, page);
        let mut table = self.word(slot) & NAMED;
        if table == 0 {
            table = self.take_zeros();
            *self.count(table) = 0;
            self.put(slot, table | LEADS);
            self.charge(process, 1);
        }
        *self.count(table) += 1;
        let place = table + (page & 1023) * 4;
        self.put(place, word);
        self.charge(process, 1);
        place
    }

    #[inline(always)]
    fn charge(&mut self, process: usize, frames: u32) {
        self.entry(process).used += frames;
        self.entry(process).room -= frames;
    }

    #[inline(always)]
    fn refund(&mut self, process: usize, frames: u32) {
        self.entry(process).used -= frames;
        self.entry(process).room += frames;
    }

    /// Gives a mapped page a frame if it is lazy, and returns its word.
    #[inline(always)]
    fn fill(&mut self, place: u32) -> u32 {
        let word = self.word(place);
        if word & LAZY == 0 {
            return word;
        }
        let frame = self.take_zeros();
        *self.count(frame) = 1;
        let word = word & !LAZY | frame | if word & GRANTED != 0 { WRITE } else { 0 };
        self.put(place, word);
        word
    }

    /// Takes a slot off the holders of its page.
    #[inline(always)]
    fn let_go(&mut self, word: u32) {
        if word & LAZY == 0 {
            let count = self.count(word);
            *count -= 1;
            if *count == 0 {
                self.put_back(word & NAMED, 0);
            }
        }
    }

    // Accesses.

    #[inline(always)]
    pub fn load<const SIZE: u32>(&mut self, process: usize, address: u32) -> Result<u32, Stop> {
        if !is_in_page(address, SIZE) {
            return self.access_two::<false>(process, address, SIZE, 0);
        }
        let mut place = self.place(process, address >> 12);
        if self.word(place) == 0 {
            place = self.ready::<false>(process, address)?;
        }
        let word = self.word(place);
        self.put(place, word | ACCESSED);
        let byte = unsafe { self.memory.as_ptr().add((word & NAMED | address & (FRAME - 1)) as usize) };
        Ok(match SIZE {
            1 => u32::from(unsafe { *byte }),
            2 => u32::from(u16::from_le(unsafe { byte.cast::<u16>().read_unaligned() })),
            _ => u32::from_le(unsafe { byte.cast::<u32>().read_unaligned() }),
        })
    }

    #[inline(always)]
    pub fn store<const SIZE: u32>(&mut self, process: usize, address: u32, value: u32) -> Result<(), Stop> {
        if !is_in_page(address, SIZE) {
            return self.access_two::<true>(process, address, SIZE, value).map(|_| ());
        }
        let mut place = self.place(process, address >> 12);
        if self.word(place) & WRITE == 0 {
            place = self.ready::<true>(process, address)?;
        }
        let word = self.word(place);
        self.put(place, word | ACCESSED | DIRTY);
        let byte = unsafe { self.memory.as_mut_ptr().add((word & NAMED | address & (FRAME - 1)) as usize) };
        match SIZE {
            1 => unsafe { *byte = value as u8 },
            2 => unsafe { byte.cast::<u16>().write_unaligned((value as u16).to_le()) },
            _ => unsafe { byte.cast::<u32>().write_unaligned(value.to_le()) },
        }
        Ok(())
    }

    /// Maps the page of an access, gives it a frame for a store, and returns where its word is.
    #[inline(never)]
    fn ready<const STORES: bool>(&mut self, process: usize, address: u32) -> Result<u32, Stop> {
        let page = address >> 12;
        let place = if is_user(page) && self.is_free(process, page) {
            self.put_page(process, page, lazy(true))
        } else {
            self.map_touched::<STORES>(process, address, address)?[0]
        };
        if STORES {
            self.fill(place);
        }
        Ok(place)
    }

    /// An access of bytes of two pages.
    #[inline(never)]
    fn access_two<const STORES: bool>(
        &mut self,
        process: usize,
        address: u32,
        size: u32,
        value: u32,
    ) -> Result<u32, Stop> {
        let last = address.wrapping_add(size - 1);
        let mut places = [address >> 12, last >> 12].map(|page| self.place(process, page));
        let wanted = if STORES { WRITE } else { PRESENT };
        if self.word(places[0]) & self.word(places[1]) & wanted == 0 {
            places = self.map_touched::<STORES>(process, address, last)?;
            if STORES {
                self.fill(places[0]);
                self.fill(places[1]);
            }
        }
        let words = places.map(|place| self.word(place));
        for (place, word) in places.into_iter().zip(words) {
            self.put(place, word | if STORES { ACCESSED | DIRTY } else { ACCESSED });
        }
        // The last four bytes of the one page, and the first four of the other. The access begins after `shift` bits.
        let (end, start) = ((words[0] & NAMED) + FRAME - 4, words[1] & NAMED);
        let (shift, mask) = (8 * (address % 4), u64::from(u32::MAX >> (32 - 8 * size)));
        let mut both = u64::from(self.word(end)) | u64::from(self.word(start)) << 32;
        if STORES {
            both = both & !(mask << shift) | (u64::from(value) & mask) << shift;
            self.put(end, both as u32);
            self.put(start, (both >> 32) as u32);
        }
        Ok((both >> shift & mask) as u32)
    }

    /// Maps the pages of an access that aren't mapped, and returns where their words are.
    #[inline(never)]
    fn map_touched<const STORES: bool>(&mut self, process: usize, address: u32, last: u32) -> Result<[u32; 2], Stop> {
        let pages = [address >> 12, last >> 12];
        // The first byte in each page, if there are two.
        let fault = |at: usize, code| Err(Stop::Fault { address: [address, last & NAMED][at], code });
        if self.directory(process) == 0 {
            return Err(Stop::Refused(Cause::NoProcess));
        }
        if let Some(at) = pages.iter().position(|page| !is_user(*page)) {
            return fault(at, if STORES { 6 } else { 4 });
        }
        let words = pages.map(|page| self.word(self.place(process, page)));
        if let Some(at) = words.iter().position(|word| STORES && word & (PRESENT | GRANTED) == PRESENT) {
            return fault(at, 7);
        }
        let of = |at: usize| if words[at] != 0 { 0 } else { 2 - (self.word(self.slot(process, pages[at])) & PRESENT) };
        let needs = match of(0) {
            needs if pages[0] == pages[1] => needs,
            2 if pages[0] >> 10 == pages[1] >> 10 => 3,
            needs => needs + of(1),
        };
        if needs > self.entry(process).room {
            return Err(Stop::Refused(Cause::Quota));
        }
        Ok(pages.map(|page| match self.place(process, page) {
            place if self.word(place) != 0 => place,
            _ => self.put_page(process, page, lazy(true)),
        }))
    }

    // Calls of pages.

    #[inline(always)]
    pub fn map(&mut self, process: usize, page: u32, write: bool) -> Result<(), Cause> {
        if !is_user(page) || !self.is_free(process, page) {
            return Err(self.not_free(process, page));
        }
        self.put_page(process, page, lazy(write));
        Ok(())
    }

    #[inline(always)]
    pub fn unmap(&mut self, process: usize, page: u32) -> Result<(), Cause> {
        let (place, word) = self.mapped(process, page)?;
        self.let_go(word);
        self.put(place, 0);
        self.refund(process, 1);
        let count = self.count(place);
        *count -= 1;
        if *count == 0 {
            self.put_back(place & NAMED, ZEROS);
            self.put(self.slot(process, page), 0);
            self.refund(process, 1);
        }
        if self.entry(process).offers != 0 {
            self.drop_offers(process, |offer| offer >> 7 == page);
        }
        Ok(())
    }

    #[inline(always)]
    pub fn protect(&mut self, process: usize, page: u32, write: bool) -> Result<(), Cause> {
        let (place, word) = self.mapped(process, page)?;
        if write && word & MAY == 0 {
            return Err(Cause::Rights);
        }
        let granted = if word & LAZY != 0 { GRANTED } else { GRANTED | WRITE };
        self.put(place, if write { word | granted } else { word & !(GRANTED | WRITE) });
        Ok(())
    }

    /// The page's word, which has the flags, and its holders.
    #[inline(always)]
    pub fn info(&mut self, process: usize, page: u32) -> Result<(u32, u32), Cause> {
        let (_, word) = self.mapped(process, page)?;
        Ok((word, if word & LAZY != 0 { 1 } else { *self.count(word) }))
    }

    // Offers.

    /// Which of a process's offers is that of a page of the user range to a target, with either right.
    #[inline(always)]
    fn find(&mut self, process: usize, page: u32, target: usize) -> Option<usize> {
        let sought = offer_of(page, target, false);
        let count = self.entry(process).offers as usize;
        debug_assert!(count <= OFFERS);
        let pending = unsafe { self.offers[process].get_unchecked(..count) };
        pending.iter().position(|offer| offer & !1 == sought)
    }

    /// Removes an offer: the last one gets its place.
    #[inline(always)]
    fn drop_offer(&mut self, process: usize, place: usize) {
        let last = self.entry(process).offers - 1;
        self.offers[process][place] = self.offers[process][last as usize];
        self.entry(process).offers = last;
        if last == 0 {
            self.offering &= !(1 << process);
        }
    }

    #[inline(never)]
    fn drop_offers(&mut self, process: usize, goes: impl Fn(u32) -> bool) {
        for place in (0..self.entry(process).offers as usize).rev() {
            if goes(self.offers[process][place]) {
                self.drop_offer(process, place);
            }
        }
    }

    #[inline(always)]
    pub fn offer(&mut self, process: usize, page: u32, target: usize, write: bool) -> Result<(), Cause> {
        let (_, word) = self.mapped(process, page)?;
        let count = self.entry(process).offers as usize;
        if target == process {
            return Err(Cause::SelfOffer);
        }
        if self.directory(target) == 0 {
            return Err(Cause::NoTarget);
        }
        if write && word & MAY == 0 {
            return Err(Cause::Rights);
        }
        if self.find(process, page, target).is_some() {
            return Err(Cause::OfferPending);
        }
        if count == OFFERS {
            return Err(Cause::TooManyOffers);
        }
        self.offers[process][count] = offer_of(page, target, write);
        self.entry(process).offers += 1;
        self.offering |= 1 << process;
        Ok(())
    }

    #[inline(always)]
    pub fn withdraw(&mut self, process: usize, page: u32, target: usize) -> Result<(), Cause> {
        if !is_user(page) || self.directory(process) == 0 {
            return Err(self.not_mapped(process, page));
        }
        let place = self.find(process, page, target).ok_or(Cause::NoOffer)?;
        self.drop_offer(process, place);
        Ok(())
    }

    #[inline(always)]
    pub fn accept(&mut self, process: usize, giver: usize, its_page: u32, page: u32) -> Result<(), Cause> {
        if !is_user(page) || self.directory(process) == 0 {
            return Err(self.not_mapped(process, page));
        }
        if !is_user(its_page) {
            return Err(Cause::NoOffer);
        }
        let offer = self.find(giver, its_page, process).ok_or(Cause::NoOffer)?;
        if !self.is_free(process, page) {
            return Err(self.not_free(process, page));
        }
        let granted = if self.offers[giver][offer] & 1 != 0 { GRANTED | WRITE | MAY } else { 0 };
        self.drop_offer(giver, offer);
        let word = self.fill(self.place(giver, its_page));
        *self.count(word) += 1;
        self.put_page(process, page, word & NAMED | PRESENT | USER | granted);
        Ok(())
    }

    // Processes.

    /// Opens a process with a quota, which has to be at least so much, and returns its number.
    #[inline(always)]
    fn open(&mut self, parent: usize, quota: u32, least: u32) -> Result<usize, Cause> {
        if self.directory(parent) == 0 {
            return Err(Cause::NoProcess);
        }
        if quota == 0 {
            return Err(Cause::BadQuota);
        }
        if self.live == u64::MAX {
            return Err(Cause::TableFull);
        }
        if quota < least {
            return Err(Cause::TooSmall);
        }
        let from = self.entry(parent);
        if quota > from.room {
            return Err(Cause::Quota);
        }
        from.room -= quota;
        from.children += 1;
        let child = self.live.trailing_ones() as usize;
        self.live |= 1 << child;
        self.directories[child] = self.take_zeros();
        self.entries[child] = Entry { quota, used: 1, room: quota - 1, parent: parent as u32, ..DEAD };
        Ok(child)
    }

    #[inline(always)]
    pub fn spawn(&mut self, process: usize, quota: u32) -> Result<usize, Cause> {
        self.open(process, quota, 0)
    }

    #[inline(never)]
    pub fn fork(&mut self, process: usize, quota: u32) -> Result<usize, Cause> {
        let used = self.entry(process).used;
        let child = self.open(process, quota, used)?;
        self.charge(child, used - 1);
        let (mut at, to) = (self.slot(process, FIRST_PAGE), self.directory(child));
        let mut left = used - 1;
        while left != 0 {
            at = self.next_word(at);
            let table = self.word(at) & NAMED;
            left -= 1 + *self.count(table);
            let copy = self.copy_table(table);
            self.put(to | at & (FRAME - 1), copy | LEADS);
            at += 4;
        }
        Ok(child)
    }

    /// Where the next word is that isn't 0, of a frame that has one there or after.
    #[inline(always)]
    fn next_word(&self, mut at: u32) -> u32 {
        while self.word(at) == 0 {
            at += 4;
            while at % 16 == 0 && self.word(at) | self.word(at + 4) | self.word(at + 8) | self.word(at + 12) == 0 {
                at += 16;
            }
        }
        at
    }

    /// A copy of a table, with a frame for each page that has one.
    fn copy_table(&mut self, table: u32) -> u32 {
        let (copy, pages) = (self.take_zeros(), *self.count(table));
        *self.count(copy) = pages;
        let mut at = table;
        for _ in 0..pages {
            at = self.next_word(at);
            let word = self.word(at);
            let mut copied = word & !(NAMED | ACCESSED | DIRTY);
            if word & LAZY == 0 {
                let frame = self.take() & NAMED;
                *self.count(frame) = 1;
                copied |= frame;
                let [from, to] = [word & NAMED, frame].map(|it| it as usize);
                let memory = self.memory.as_mut_ptr();
                unsafe { ptr::copy_nonoverlapping(memory.add(from), memory.add(to), FRAME as usize) };
            }
            self.put(copy | at & (FRAME - 1), copied);
            at += 4;
        }
        copy
    }

    #[inline(always)]
    pub fn exit(&mut self, process: usize) -> Result<(), Cause> {
        let (directory, entry) = (self.directory(process), *self.entry(process));
        if directory == 0 {
            return Err(Cause::NoProcess);
        }
        if process == 0 {
            return Err(Cause::RootExit);
        }
        if entry.children != 0 {
            return Err(Cause::HasChildren);
        }
        if entry.used != 1 {
            self.close_tables(directory, entry.used - 1);
        }
        self.put_back(directory, ZEROS);
        self.directories[process] = 0;
        self.entries[process] = DEAD;
        self.live &= !(1 << process);
        self.offering &= !(1 << process);
        self.entry(entry.parent as usize).room += entry.quota;
        self.entry(entry.parent as usize).children -= 1;
        let mut offering = self.offering;
        while offering != 0 {
            self.drop_offers(offering.trailing_zeros() as usize, |offer| offer >> 1 & 63 == process as u32);
            offering &= offering - 1;
        }
        Ok(())
    }

    /// Frees the tables of a directory, which cost so much, and their pages. All words are 0 then.
    fn close_tables(&mut self, directory: u32, cost: u32) {
        let (mut at, mut left) = (directory + (FIRST_PAGE >> 10) * 4, cost);
        while left != 0 {
            at = self.next_word(at);
            let table = self.word(at) & NAMED;
            let pages = *self.count(table);
            let mut place = table;
            for _ in 0..pages {
                place = self.next_word(place);
                self.let_go(self.word(place));
                self.put(place, 0);
                place += 4;
            }
            self.put_back(table, ZEROS);
            self.put(at, 0);
            left -= 1 + pages;
            at += 4;
        }
    }

    /// The quota, what is used and what is given.
    #[inline(always)]
    pub fn quota(&mut self, process: usize) -> Result<(u32, u32, u32), Cause> {
        let Entry { quota, used, room, .. } = *self.entry(process);
        if used == 0 {
            Err(Cause::NoProcess)
        } else {
            Ok((quota, used, quota - used - room))
        }
    }
}
