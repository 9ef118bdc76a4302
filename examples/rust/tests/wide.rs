//! Tests of wide cores, and of cores over blocks of the caller's.

use tower::{BootFault, Core, Pid, Size, Vaddr};

/// Stores to that many pages of the root, and loads each again.
fn fill(core: &mut Core<'_>, pages: u32) {
    let addr = |page: u32| Vaddr(0x4000_0000 + page * 4096 + page % 1000 * 4);
    for page in 0..pages {
        core.store(Pid::ROOT, addr(page), Size::Four, page)
            .unwrap()
            .ignore();
    }
    for page in 0..pages {
        assert_eq!(core.load(Pid::ROOT, addr(page), Size::Four), Ok(page));
    }
}

#[test]
fn boots_wide_of_16_to_1048576_frames() {
    for frames in [0, 15, 1_048_577, u32::MAX] {
        assert_eq!(Core::boot_wide(frames).err(), Some(BootFault::BadWideSize));
    }
    for frames in [16, 4097, 20_000] {
        assert_eq!(Core::boot_wide(frames).unwrap().frames(), frames);
    }
    let text = "frames must be 16 to 1048576";
    assert_eq!(BootFault::BadWideSize.to_string(), text);
}

#[test]
fn fills_more_than_16_mebibytes() {
    let mut core = Core::boot_wide(20_000).unwrap();
    fill(&mut core, 15_000);
    let used = core.container(Pid::ROOT).unwrap().used;
    assert_eq!(used, 1 + 15 + 15_000);
}

#[cfg(feature = "images")]
#[test]
fn a_wide_core_is_checked_and_has_no_image() {
    use tower::{CoreImageFault, Verdict};

    let mut core = Core::boot_wide(6000).unwrap();
    fill(&mut core, 5500);
    assert_eq!(core.check(), Ok(Verdict::Sound));
    assert_eq!(core.image(), Err(CoreImageFault::TooManyFrames));
    let text = "more than 4096 frames";
    assert_eq!(CoreImageFault::TooManyFrames.to_string(), text);
}

#[cfg(feature = "blocks")]
mod blocks {
    use super::fill;
    use std::thread;
    use tower::{BootFault, Core, block_bytes};

    /// Memory that begins at a page.
    #[repr(align(4096))]
    #[derive(Clone, Copy)]
    #[allow(dead_code)] // (its bytes are read as a slice's)
    struct Page([u8; 4096]);

    /// So many pages of these bytes.
    fn pages(count: usize, byte: u8) -> Vec<Page> {
        vec![Page([byte; 4096]); count]
    }

    fn bytes_of(pages: &mut [Page]) -> &mut [u8] {
        // SAFETY: a page is its bytes.
        unsafe { std::slice::from_raw_parts_mut(pages.as_mut_ptr().cast(), pages.len() * 4096) }
    }

    /// A block for that many frames.
    fn block(frames: u32) -> Vec<Page> {
        pages(block_bytes(frames) / 4096, 0x5a)
    }

    #[test]
    fn frames_lie_at_the_blocks_beginning() {
        let mut memory = block(5000);
        let begins = memory.as_ptr().cast::<u8>();
        let mut core = Core::over(5000, bytes_of(&mut memory)).unwrap();
        fill(&mut core, 4900);
        let lies = core.memory();
        assert_eq!(
            (lies.cast::<u8>().as_ptr().cast_const(), lies.len()),
            (begins, 5000 * 4096)
        );
        drop(core);
        bytes_of(&mut memory).fill(0xa5);
        fill(&mut Core::over(5000, bytes_of(&mut memory)).unwrap(), 10);
    }

    #[test]
    fn each_smallest_block_has_room_for_its_core() {
        for frames in (16..80).chain([1000, 4096, 4097, 65_536]) {
            let mut memory = block(frames);
            let core = Core::over(frames, bytes_of(&mut memory)).unwrap();
            assert_eq!(core.frames(), frames);
        }
    }

    #[test]
    fn nothing_outside_a_block_changes() {
        let size = block_bytes(16);
        let mut memory = pages(size / 4096 + 2, 0x5a);
        let bytes = bytes_of(&mut memory);
        fill(
            &mut Core::over(16, &mut bytes[4096..4096 + size]).unwrap(),
            9,
        );
        assert!(
            bytes[..4096]
                .iter()
                .chain(&bytes[4096 + size..])
                .all(|byte| *byte == 0x5a)
        );
    }

    #[test]
    fn wrong_blocks_and_sizes_are_refused() {
        let size = block_bytes(64);
        let mut memory = pages(size / 4096 + 1, 0x5a);
        let bytes = bytes_of(&mut memory);
        for place in [1, 2048, 4095] {
            let off_a_page = Core::over(64, &mut bytes[place..place + size]);
            assert_eq!(off_a_page.err(), Some(BootFault::BadBlock));
        }
        for length in [0, size - 4096, size - 1, size + 1] {
            let of_no_size = Core::over(64, &mut bytes[..length]);
            assert_eq!(of_no_size.err(), Some(BootFault::BadBlock));
        }
        for frames in [0, 15, 1_048_577, u32::MAX] {
            let of_no_frames = Core::over(frames, &mut bytes[..size]);
            assert_eq!(of_no_frames.err(), Some(BootFault::BadWideSize));
        }
        assert!(bytes.iter().all(|byte| *byte == 0x5a));
    }

    #[test]
    fn the_block_of_a_forgotten_core_is_lost() {
        let mut memory = block(16);
        std::mem::forget(Core::over(16, bytes_of(&mut memory)).unwrap());
        let again = Core::over(16, bytes_of(&mut memory));
        assert_eq!(again.err(), Some(BootFault::BadBlock));
        fill(&mut Core::boot(64).unwrap(), 10);
        std::mem::forget(memory);
    }

    #[test]
    fn threads_boot_and_drop_at_a_time() {
        let lanes: Vec<_> = (0..4)
            .map(|lane| {
                thread::spawn(move || {
                    let mut memory = block(16 + lane);
                    for _ in 0..200 {
                        fill(
                            &mut Core::over(16 + lane, bytes_of(&mut memory)).unwrap(),
                            5,
                        );
                        fill(&mut Core::boot(16 + lane).unwrap(), 5);
                    }
                })
            })
            .collect();
        for lane in lanes {
            lane.join().unwrap();
        }
    }
}
