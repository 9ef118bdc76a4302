//! Tests of the image of a core, of the check of that image and of changed ones, and of cores made of them.
#![cfg(feature = "images")]

use std::path::{Path, PathBuf};
use std::process::Command;
use std::{env, fs};
use tower::{
    Core, Failure, Frame, ImageFault, Page, Pid, RestoreFault, Size, Vaddr, Verdict, check_image,
};

const LENGTH: usize = 67_340;
const SECOND_ROLE: usize = 1548 + 16 * 3 + 12;

/// Returns a core of 16 frames whose process 0 stored a word, and its image.
fn stored() -> (Core<'static>, Vec<u8>) {
    let mut core = Core::boot(16).unwrap();
    core.store(Pid::ROOT, Vaddr(0x4000_0000), Size::Four, 0xdead_beef)
        .unwrap()
        .ignore();
    let image = core.image().unwrap();
    (core, image)
}

/// Returns the result of checking an image with another byte at a place.
fn changed(image: &[u8], place: usize, byte: u8) -> Result<Verdict, ImageFault> {
    let mut bytes = image.to_vec();
    bytes[place] = byte;
    check_image(&bytes)
}

#[test]
fn a_cores_image_is_sound() {
    let (core, image) = stored();
    assert_eq!((image.len(), &image[..4]), (LENGTH, b"mC2I".as_slice()));
    assert_eq!(core.check(), Ok(Verdict::Sound));
    assert_eq!(check_image(&image), Ok(Verdict::Sound));
    assert_eq!(core.image(), Ok(image));
}

#[test]
fn the_first_clause_that_fails_is_told() {
    let (_core, image) = stored();
    let process = Verdict::ProcessFails {
        pid: Pid::ROOT,
        clause: 5,
    };
    let frame = Verdict::FrameFails {
        frame: Frame(3),
        clause: 4,
    };
    assert_eq!(changed(&image, 24, 4), Ok(process));
    assert_eq!(changed(&image, SECOND_ROLE, 2), Ok(frame));
    assert_eq!(process.to_string(), "process 0 P5");
    assert_eq!(frame.to_string(), "frame 3 F4");
}

#[test]
fn bytes_that_are_no_image_are_refused() {
    let (_core, image) = stored();
    assert_eq!(changed(&image, 0, 0), Err(ImageFault::NotImage));
    assert_eq!(check_image(&image[1..]), Err(ImageFault::NotImage));
    assert_eq!(
        check_image(&image[..LENGTH - 1]),
        Err(ImageFault::BadLength)
    );
    assert_eq!(changed(&image, 4, 3), Err(ImageFault::BadVersion));
    let field = ImageFault::BadField { offset: 16 };
    assert_eq!(changed(&image, 16, 64), Err(field));
    assert_eq!(field.to_string(), "bad field at byte 16");
}

/// Returns why no core comes of an image with another byte at a place.
fn not_restored(image: &[u8], place: usize, byte: u8) -> Option<RestoreFault> {
    let mut bytes = image.to_vec();
    bytes[place] = byte;
    Core::restore(&bytes).err()
}

#[test]
fn a_core_comes_of_an_image() {
    let (mut core, image) = stored();
    let mut other = Core::restore(&image).unwrap();
    assert_eq!(other.image(), Ok(image));
    for core in [&mut core, &mut other] {
        let addr = Vaddr(0x4000_0000);
        assert_eq!(core.load(Pid::ROOT, addr, Size::Four), Ok(0xdead_beef));
        let mapped = core.map(Pid::ROOT, Page(0x40000), true);
        assert!(matches!(mapped, Err(Failure::Refused(_))));
    }
    assert_eq!(core.image(), other.image());
}

#[test]
fn no_core_comes_of_other_bytes() {
    let (_core, image) = stored();
    let verdict = Verdict::FrameFails {
        frame: Frame(3),
        clause: 4,
    };
    let not_sound = RestoreFault::NotSound(verdict);
    assert_eq!(not_restored(&image, SECOND_ROLE, 2), Some(not_sound));
    assert_eq!(not_restored(&image, 4, 1), Some(RestoreFault::OldWords));
    let refused = RestoreFault::Refused(ImageFault::BadVersion);
    assert_eq!(not_restored(&image, 4, 3), Some(refused));
    let short = Core::restore(&image[..LENGTH - 1]).err();
    assert_eq!(short, Some(RestoreFault::Refused(ImageFault::BadLength)));
    assert_eq!(not_sound.to_string(), "the image is not sound: frame 3 F4");
}

/// Runs the example with these arguments, and returns what it printed.
fn resume(words: &[&str]) -> String {
    let test = env::current_exe().unwrap();
    let build = test.ancestors().nth(2).unwrap();
    let ended = Command::new(build.join("examples/resume"))
        .args(words)
        .output()
        .unwrap();
    assert!(
        ended.status.success(),
        "{}",
        String::from_utf8_lossy(&ended.stderr)
    );
    String::from_utf8(ended.stdout).unwrap()
}

/// Returns what the proved program of the repository says of a file; None where there is none, as in a release.
fn checked(file: &Path) -> Option<Vec<u8>> {
    let root = PathBuf::from(env!("CARGO_MANIFEST_DIR")).join("../..");
    if !root.join("crates/tower/out/tower").exists() {
        return None;
    }
    let mut run = Command::new(root.join("tower"));
    let ended = run.arg("check").arg(file).output().unwrap();
    Some(ended.stdout)
}

#[test]
fn a_stopped_sandbox_goes_on_in_another_process() {
    let file = env::temp_dir().join(format!("tower-resume-{}.image", std::process::id()));
    let name = file.to_str().unwrap();
    assert_eq!(resume(&["stop", name]), "");
    if let Some(told) = checked(&file) {
        assert_eq!(told, b"sound\n");
    }
    let went_on = resume(&["go", name]);
    fs::remove_file(&file).unwrap();
    assert_eq!(went_on, resume(&["whole"]));
    assert!(went_on.starts_with("steps 20000, "));
}
