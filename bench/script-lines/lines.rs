//! The lines of scripts and of replies in plain Rust, tuned by hand. A line as scripts mostly write it is read, carried
//! out and answered in one pass over its bytes. Any other is first written so.
use crate::machine::{Cause, Machine, Stop, NAMES, PROCESSES};

/// The most bytes of a line, its line feed not counted.
pub const LINE: usize = 100;
/// How many bytes after a script have to be readable, and how many after the replies writable.
pub const ROOM: usize = 32;

const fn four(text: &[u8; 4]) -> u32 {
    u32::from_le_bytes(*text)
}

/// By cause: its line, padded so that it is copied whole, and the line's bytes.
static REFUSALS: [([u8; 24], usize); NAMES.len()] = {
    let mut all = [(*b"refused                 ", 0); NAMES.len()];
    let mut cause = 0;
    while cause < NAMES.len() {
        let (name, mut place) = (NAMES[cause].as_bytes(), 0);
        while place < name.len() {
            all[cause].0[8 + place] = name[place];
            place += 1;
        }
        all[cause].0[8 + place] = b'\n';
        all[cause].1 = 8 + place + 1;
        cause += 1;
    }
    all
};

/// The two decimal digits of each number below 100.
static PAIRS: [[u8; 2]; 100] = {
    let (mut all, mut number) = ([[0; 2]; 100], 0);
    while number < 100 {
        all[number] = [b'0' + number as u8 / 10, b'0' + number as u8 % 10];
        number += 1;
    }
    all
};

/// Hexadecimal digits, eight at a time: the processor's vectors have them in their lower halves.
mod digits {
    use std::arch::x86_64::*;

    #[inline(always)]
    unsafe fn each(byte: u8) -> __m128i {
        _mm_set1_epi8(byte as i8)
    }

    /// The values of eight digits, and a bit for each byte that is no digit.
    #[inline(always)]
    unsafe fn values(at: *const u8) -> (__m128i, u8) {
        let bytes = _mm_loadl_epi64(at.cast());
        // The value of a decimal digit, or more than 15; then that of a letter, or more.
        let decimal = _mm_sub_epi8(_mm_subs_epu8(_mm_add_epi8(bytes, each(0xff - b'9')), each(6)), each(0xf0));
        let letter = _mm_adds_epu8(_mm_sub_epi8(_mm_and_si128(bytes, each(0xdf)), each(b'A')), each(10));
        let values = _mm_min_epu8(decimal, letter);
        (values, _mm_movemask_epi8(_mm_adds_epu8(values, each(127 - 15))) as u8)
    }

    /// The number of a token of one to eight digits, and where it ends.
    #[inline(always)]
    unsafe fn any(at: *const u8, values: __m128i, others: u8) -> Option<(u32, *const u8)> {
        let count = others.trailing_zeros();
        if count == 0 {
            return None;
        }
        Some((number(_mm_and_si128(values, each(15))) >> (32 - 4 * count), at.add(count as usize)))
    }

    /// The same. A token of eight digits, as of an address, is the usual one.
    #[inline(always)]
    pub unsafe fn read(at: *const u8) -> Option<(u32, *const u8)> {
        let (values, others) = values(at);
        if others == 0 {
            Some((number(values), at.add(8)))
        } else {
            any(at, values, others)
        }
    }

    /// The same. A token of five digits, as of a page, is the usual one.
    #[inline(always)]
    pub unsafe fn page(at: *const u8) -> Option<(u32, *const u8)> {
        let (values, others) = values(at);
        if others & 63 == 32 {
            Some((number(_mm_slli_epi64(values, 24)), at.add(5)))
        } else {
            any(at, values, others)
        }
    }

    /// The number that eight values write.
    #[inline(always)]
    unsafe fn number(values: __m128i) -> u32 {
        if cfg!(target_feature = "ssse3") {
            let pairs = _mm_maddubs_epi16(values, _mm_set1_epi16(0x0110));
            return _mm_cvtsi128_si32(_mm_shuffle_epi8(pairs, _mm_cvtsi32_si128(0x0002_0406))) as u32;
        }
        let pairs = _mm_or_si128(_mm_slli_epi16(values, 4), _mm_srli_epi16(values, 8));
        let bytes = _mm_packus_epi16(_mm_and_si128(pairs, _mm_set1_epi16(255)), pairs);
        (_mm_cvtsi128_si32(bytes) as u32).swap_bytes()
    }

    #[inline(always)]
    pub unsafe fn write(to: *mut u8, number: u32) {
        let bytes = _mm_cvtsi32_si128(number.swap_bytes() as i32);
        let halves = _mm_and_si128(_mm_unpacklo_epi8(_mm_srli_epi16(bytes, 4), bytes), each(15));
        let texts = if cfg!(target_feature = "ssse3") {
            _mm_shuffle_epi8(_mm_loadu_si128(b"0123456789abcdef".as_ptr().cast()), halves)
        } else {
            let letters = _mm_and_si128(_mm_cmpgt_epi8(halves, each(9)), each(b'a' - 10 - b'0'));
            _mm_add_epi8(_mm_add_epi8(halves, each(b'0')), letters)
        };
        _mm_storel_epi64(to.cast(), texts);
    }
}

// Replies. Each is written at a place, and the place after it is returned.

/// Writes a whole text, of which so many bytes count.
#[inline(always)]
unsafe fn tell<const WHOLE: usize>(to: *mut u8, text: &[u8; WHOLE], count: usize) -> *mut u8 {
    to.cast::<[u8; WHOLE]>().write_unaligned(*text);
    to.add(count)
}

/// The line of a call that ended well, or of the cause against it.
#[inline(always)]
unsafe fn answer<T>(to: *mut u8, ended: Result<T, Cause>, well: impl FnOnce(T, *mut u8) -> *mut u8) -> *mut u8 {
    match ended {
        Ok(it) => well(it, to),
        Err(cause) => refused(cause, to),
    }
}

#[inline(never)]
unsafe fn refused(cause: Cause, to: *mut u8) -> *mut u8 {
    let (text, count) = &REFUSALS[cause as usize];
    tell(to, text, *count)
}

#[inline(never)]
unsafe fn stopped(stop: Stop, to: *mut u8) -> *mut u8 {
    match stop {
        Stop::Refused(cause) => refused(cause, to),
        Stop::Fault { address, code } => {
            digits::write(tell(to, b"fault   ", 6), address);
            tell(to.add(14), &[b' ', b'0' + code, b'\n', b'\n'], 3)
        }
    }
}

#[inline(always)]
unsafe fn done(to: *mut u8, ended: Result<(), Cause>) -> *mut u8 {
    answer(to, ended, |_, to| tell(to, b"done\n   ", 5))
}

#[inline(always)]
unsafe fn stored(to: *mut u8, ended: Result<(), Stop>) -> *mut u8 {
    match ended {
        Ok(()) => tell(to, b"done\n   ", 5),
        Err(stop) => stopped(stop, to),
    }
}

#[inline(always)]
unsafe fn loaded(to: *mut u8, ended: Result<u32, Stop>) -> *mut u8 {
    match ended {
        Ok(value) => {
            digits::write(tell(to, b"value   ", 6), value);
            tell(to.add(14), b"\n", 1)
        }
        Err(stop) => stopped(stop, to),
    }
}

/// Writes a number of at most four decimal digits, and a byte after it.
#[inline(always)]
unsafe fn number(to: *mut u8, number: u32, after: u8) -> *mut u8 {
    let (high, low) = (number as usize / 100, number as usize % 100);
    let to = match high {
        0 if low < 10 => return tell(to, &[b'0' + low as u8, after], 2),
        0 => to,
        1..10 => tell(to, &[b'0' + high as u8], 1),
        _ => tell(to, &PAIRS[high], 2),
    };
    tell(tell(to, &PAIRS[low], 2), &[after], 1)
}

#[inline(always)]
unsafe fn opened(to: *mut u8, ended: Result<usize, Cause>) -> *mut u8 {
    answer(to, ended, |child, to| number(tell(to, b"child   ", 6), child as u32, b'\n'))
}

#[inline(always)]
unsafe fn flags(to: *mut u8, ended: Result<(u32, u32), Cause>) -> *mut u8 {
    answer(to, ended, |(word, holders), to| {
        let bit = |place: u32| b'0' + (word >> place & 1) as u8;
        let text = [bit(11), b' ', bit(9), b' ', bit(5), b' ', bit(6), b' '];
        number(tell(tell(to, b"info    ", 5), &text, 8), holders, b'\n')
    })
}

#[inline(always)]
unsafe fn usage(to: *mut u8, ended: Result<(u32, u32, u32), Cause>) -> *mut u8 {
    answer(to, ended, |(quota, used, given), to| {
        let to = number(tell(to, b"quota   ", 6), quota, b' ');
        number(number(to, used, b' '), given, b'\n')
    })
}

// Lines as scripts mostly write them. Each function reads at a place, and returns the place after what it has read.

#[inline(always)]
unsafe fn four_at(at: *const u8) -> u32 {
    u32::from_le(at.cast::<u32>().read_unaligned())
}

/// Whether this text is there. The name of a call is compared after its first four bytes.
#[inline(always)]
unsafe fn is_at<const COUNT: usize>(at: *const u8, text: &[u8; COUNT]) -> bool {
    at.cast::<[u8; COUNT]>().read_unaligned() == *text
}

/// What was read, if this byte is after it.
#[inline(always)]
unsafe fn before<T>(byte: u8, read: Option<(T, *const u8)>) -> Option<(T, *const u8)> {
    let (it, at) = read?;
    if *at == byte {
        Some((it, at.add(1)))
    } else {
        None
    }
}

/// A process of one or two digits.
#[inline(always)]
unsafe fn process(at: *const u8) -> Option<(usize, *const u8)> {
    let [first, second] = [*at, *at.add(1)].map(|byte| usize::from(byte.wrapping_sub(b'0')));
    let both = first * 10 + second;
    match (first, second) {
        (10.., _) => None,
        (_, 10..) => Some((first, at.add(1))),
        _ if both < PROCESSES => Some((both, at.add(2))),
        _ => None,
    }
}

/// The process of a line, after the CPU's one digit.
#[inline(always)]
unsafe fn caller(at: *const u8) -> Option<(usize, *const u8)> {
    // From the lowest byte: CPU, 0, process, 0, if the process has one digit.
    let head = four_at(at) ^ four(b"0 0 ");
    if head & 0xfff8 != 0 {
        return None;
    }
    if head < 10 << 16 {
        Some(((head >> 16) as usize, at.add(4)))
    } else {
        before(b' ', process(at.add(2)))
    }
}

/// The right at a line's end.
#[inline(always)]
unsafe fn last_right(at: *const u8) -> Option<(bool, *const u8)> {
    let write = is_at(at, b" rw\n");
    if write || is_at(at, b" ro\n") {
        Some((write, at.add(4)))
    } else {
        None
    }
}

/// A page, and the right at the line's end.
#[inline(always)]
unsafe fn page_and_right(at: *const u8) -> Option<(u32, bool, *const u8)> {
    let (page, at) = digits::page(at)?;
    let (write, next) = last_right(at)?;
    Some((page, write, next))
}

/// A number of one to ten digits, below 2^32, at a line's end.
#[inline(always)]
unsafe fn last_number(at: *const u8) -> Option<(u32, *const u8)> {
    let (mut number, mut end) = (0_u64, at);
    while (*end).is_ascii_digit() {
        number = number.wrapping_mul(10).wrapping_add(u64::from(*end - b'0'));
        end = end.add(1);
    }
    let is_number = end != at && end.offset_from(at) <= 10 && number < 1 << 32;
    if is_number && *end == b'\n' {
        Some((number as u32, end.add(1)))
    } else {
        None
    }
}

/// Carries out a line that is as scripts mostly write it, and writes its reply. Returns where the next line begins and
/// where the next reply goes; None, with nothing done, if the line is otherwise. There is a line feed at its end, and ROOM
/// bytes after it are readable; at `to` ROOM bytes are writable.
#[inline(always)]
pub unsafe fn usual(machine: &mut Machine, at: *const u8, to: *mut u8) -> Option<(*const u8, *mut u8)> {
    const LOAD: u32 = four(b"load");
    const STORE: u32 = four(b"stor");
    const MAP: u32 = four(b"map ");
    const UNMAP: u32 = four(b"unma");
    const PROTECT: u32 = four(b"prot");
    const INFO: u32 = four(b"info");
    const OFFER: u32 = four(b"offe");
    const WITHDRAW: u32 = four(b"with");
    const ACCEPT: u32 = four(b"acce");
    const SPAWN: u32 = four(b"spaw");
    const FORK: u32 = four(b"fork");
    const EXIT: u32 = four(b"exit");
    const QUOTA: u32 = four(b"quot");
    let (pid, at) = caller(at)?;
    match four_at(at) {
        LOAD if is_at(at.add(4), b" ") => {
            let (address, at) = before(b' ', digits::read(at.add(5)))?;
            let to = if is_at(at, b"4\n") {
                loaded(to, machine.load::<4>(pid, address))
            } else if is_at(at, b"2\n") {
                loaded(to, machine.load::<2>(pid, address))
            } else if is_at(at, b"1\n") {
                loaded(to, machine.load::<1>(pid, address))
            } else {
                return None;
            };
            Some((at.add(2), to))
        }
        STORE if is_at(at.add(4), b"e ") => {
            let (address, at) = before(b' ', digits::read(at.add(6)))?;
            let (value, next) = before(b'\n', digits::read(at.add(2)))?;
            let to = if is_at(at, b"4 ") {
                stored(to, machine.store::<4>(pid, address, value))
            } else if is_at(at, b"2 ") {
                stored(to, machine.store::<2>(pid, address, value))
            } else if is_at(at, b"1 ") {
                stored(to, machine.store::<1>(pid, address, value))
            } else {
                return None;
            };
            Some((next, to))
        }
        MAP => {
            let (page, write, next) = page_and_right(at.add(4))?;
            Some((next, done(to, machine.map(pid, page, write))))
        }
        UNMAP if is_at(at.add(4), b"p ") => {
            let (page, next) = before(b'\n', digits::page(at.add(6)))?;
            Some((next, done(to, machine.unmap(pid, page))))
        }
        PROTECT if is_at(at.add(4), b"ect ") => {
            let (page, write, next) = page_and_right(at.add(8))?;
            Some((next, done(to, machine.protect(pid, page, write))))
        }
        INFO if is_at(at.add(4), b" ") => {
            let (page, next) = before(b'\n', digits::page(at.add(5)))?;
            Some((next, flags(to, machine.info(pid, page))))
        }
        OFFER if is_at(at.add(4), b"r ") => {
            let (page, at) = before(b' ', digits::page(at.add(6)))?;
            let (target, at) = process(at)?;
            let (write, next) = last_right(at)?;
            Some((next, done(to, machine.offer(pid, page, target, write))))
        }
        WITHDRAW if is_at(at.add(4), b"draw ") => {
            let (page, at) = before(b' ', digits::page(at.add(9)))?;
            let (target, next) = before(b'\n', process(at))?;
            Some((next, done(to, machine.withdraw(pid, page, target))))
        }
        ACCEPT if is_at(at.add(3), b"ept ") => {
            let (giver, at) = before(b' ', process(at.add(7)))?;
            let (its_page, at) = before(b' ', digits::page(at))?;
            let (page, next) = before(b'\n', digits::page(at))?;
            Some((next, done(to, machine.accept(pid, giver, its_page, page))))
        }
        SPAWN if is_at(at.add(4), b"n ") => {
            let (quota, next) = last_number(at.add(6))?;
            Some((next, opened(to, machine.spawn(pid, quota))))
        }
        FORK if is_at(at.add(4), b" ") => {
            let (quota, next) = last_number(at.add(5))?;
            Some((next, opened(to, machine.fork(pid, quota))))
        }
        EXIT if is_at(at.add(4), b"\n") => Some((at.add(5), done(to, machine.exit(pid)))),
        QUOTA if is_at(at.add(4), b"a\n") => Some((at.add(6), usage(to, machine.quota(pid)))),
        _ => None,
    }
}

/// A token of at most ten bytes without the zeros that lead.
fn without_zeros(token: &[u8]) -> Option<&[u8]> {
    let zeros = token.iter().take_while(|byte| **byte == b'0').count();
    if token.len() > 10 {
        None
    } else {
        Some(&token[zeros.min(token.len() - 1)..])
    }
}

/// Carries out any line, given without its line feed, and writes its reply if it has one. Returns where the next reply
/// goes; None if the line is malformed.
#[cold]
pub unsafe fn any(machine: &mut Machine, line: &[u8], to: *mut u8) -> Option<*mut u8> {
    if line.len() > LINE {
        return None;
    }
    let tokens = line.split(|byte| *byte == b' ').filter(|token| !token.is_empty());
    let (mut anew, mut count, mut call) = ([b'\n'; LINE + 1 + ROOM], 0, &line[..0]);
    for (place, token) in tokens.enumerate() {
        let token = match (place, call) {
            (0 | 1, _) | (3, b"accept") | (4, b"offer" | b"withdraw") => without_zeros(token),
            _ => Some(token),
        };
        // A CPU or a process that is too long is malformed, unless the line is a comment.
        let token = token.unwrap_or(b"-");
        if place == 2 {
            call = token;
        }
        anew[count..count + token.len()].copy_from_slice(token);
        count += token.len();
        anew[count] = b' ';
        count += 1;
    }
    if count == 0 || line[0] == b'#' {
        return Some(to);
    }
    anew[count - 1] = b'\n';
    usual(machine, anew.as_ptr(), to).map(|(_, to)| to)
}
