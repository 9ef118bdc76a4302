//! Tests of cores of any size that are saved and resumed with their offers.
#![cfg(feature = "streams")]

use std::io;
use std::io::{Read, Write};
use tower::{
    Cause, Core, Failure, ImageFault, Page, Pid, ResumeFault, SaveFault, Size, Vaddr, Verdict,
};

const FRONT: usize = 1556;
const OFFERED: Page = Page(0x40003);
const HERE: Page = Page(0x50000);

/// A core of more frames than an image of version 2 has, with a child and two offers, and its image.
fn saved() -> (Core<'static>, Pid, Vec<u8>) {
    let mut core = Core::boot_wide(5000).unwrap();
    let child = core.spawn(Pid::ROOT, 10).unwrap();
    for page in 0..20 {
        let addr = Vaddr(0x4000_0000 + 4096 * page);
        core.store(Pid::ROOT, addr, Size::Four, page)
            .unwrap()
            .ignore();
    }
    core.offer(Pid::ROOT, Page(0x40005), child, false).unwrap();
    core.offer(Pid::ROOT, OFFERED, child, true).unwrap();
    let mut image = Vec::new();
    core.save(&mut image).unwrap();
    (core, child, image)
}

#[test]
fn a_core_goes_on_with_its_offers() {
    let (mut core, child, image) = saved();
    // (frame 0, two directories, a table and 20 pages)
    assert_eq!(image.len(), FRONT + 16 * 2 + 4116 * 24);
    let mut other = Core::resume(&image[..]).unwrap();
    let mut again = Vec::new();
    other.save(&mut again).unwrap();
    assert_eq!(again, image);
    for core in [&mut core, &mut other] {
        assert_eq!(core.offers(Pid::ROOT).count(), 2);
        core.accept(child, Pid::ROOT, OFFERED, HERE)
            .unwrap()
            .ignore();
        assert_eq!(core.load(child, Vaddr(0x5000_0000), Size::Four), Ok(3));
        let twice = core.accept(child, Pid::ROOT, OFFERED, HERE).err();
        assert_eq!(twice, Some(Failure::Refused(Cause::NoOffer)));
    }
}

/// Why no core comes of an image with another byte at a place.
fn not_resumed(image: &[u8], place: usize, byte: u8) -> ResumeFault {
    let mut bytes = image.to_vec();
    bytes[place] = byte;
    Core::resume(&bytes[..]).err().expect("a fault")
}

#[test]
fn no_core_comes_of_other_bytes() {
    let (_core, _child, image) = saved();
    let refused = |fault: ResumeFault, expected: ImageFault| {
        assert!(matches!(fault, ResumeFault::Refused(it) if it == expected));
    };
    refused(not_resumed(&image, 0, 0), ImageFault::NotImage);
    refused(not_resumed(&image, 4, 2), ImageFault::BadVersion);
    let field = ImageFault::BadField { offset: 1568 };
    refused(not_resumed(&image, 1568, 2), field);
    let short = Core::resume(&image[1..]).err().expect("a fault");
    refused(short, ImageFault::NotImage);
    let cut = Core::resume(&image[..image.len() - 1]).err();
    refused(cut.expect("a fault"), ImageFault::BadLength);
    // (process 0's quota, and an offer of a page that it doesn't have)
    let unsound = not_resumed(&image, 20, 1);
    let root = Verdict::ProcessFails {
        pid: Pid::ROOT,
        clause: 1,
    };
    assert!(matches!(unsound, ResumeFault::NotSound(verdict) if verdict == root));
    let offer = not_resumed(&image, FRONT + 16 + 4, 0x20);
    assert!(matches!(offer, ResumeFault::OfferRefused { number: 1 }));
    assert_eq!(offer.to_string(), "offer 1 is refused");
}

/// A reader or a writer that fails after so many bytes.
struct Fails(usize);

impl Read for Fails {
    fn read(&mut self, bytes: &mut [u8]) -> io::Result<usize> {
        let count = self.0.min(bytes.len());
        self.0 -= count;
        bytes[..count].fill(0);
        (count > 0)
            .then_some(count)
            .ok_or(io::ErrorKind::Other.into())
    }
}

impl Write for Fails {
    fn write(&mut self, bytes: &[u8]) -> io::Result<usize> {
        let count = self.0.min(bytes.len());
        self.0 -= count;
        (count > 0)
            .then_some(count)
            .ok_or(io::ErrorKind::Other.into())
    }

    fn flush(&mut self) -> io::Result<()> {
        Ok(())
    }
}

#[test]
fn failed_reads_and_writes_are_told() {
    let (core, _child, image) = saved();
    for count in [0, FRONT, image.len() - 1] {
        assert!(matches!(core.save(Fails(count)), Err(SaveFault::Write(_))));
        let read = Core::resume(Fails(count)).err();
        assert!(matches!(read, Some(ResumeFault::Read(_))));
    }
    assert!(core.save(Fails(image.len())).is_ok());
}
