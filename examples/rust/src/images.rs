//! The image of a core, the check of images, and a core made of one, from the archive of `crates/tower_images`.

extern crate alloc;

use crate::VERSION;
use crate::alone::alone;
use crate::core::{Core, version};
use crate::raw;
use crate::words::{Frame, Pid, pid_of, told};
use ::core::error::Error;
use ::core::fmt;
use ::core::ptr::null_mut;
use alloc::vec::Vec;

/// Memory ran out for a check.
///
/// Example: [`Core::image`].
#[derive(Clone, Copy, Debug, PartialEq, Eq, Hash)]
pub struct NoMemory;

impl fmt::Display for NoMemory {
    fn fmt(&self, to: &mut fmt::Formatter<'_>) -> fmt::Result {
        to.write_str("out of memory")
    }
}

impl Error for NoMemory {}

/// Why there is no image of a core.
///
/// Example: [`Core::image`].
#[derive(Clone, Copy, Debug, PartialEq, Eq, Hash)]
pub enum CoreImageFault {
    /// The core has more than 4,096 frames, which are the most of an image.
    TooManyFrames,
    /// Memory ran out for the image.
    NoMemory,
}

impl fmt::Display for CoreImageFault {
    fn fmt(&self, to: &mut fmt::Formatter<'_>) -> fmt::Result {
        match self {
            CoreImageFault::TooManyFrames => to.write_str("more than 4096 frames"),
            CoreImageFault::NoMemory => NoMemory.fmt(to),
        }
    }
}

impl Error for CoreImageFault {}

/// The result of checking an image. docs/IMAGES.md has the clauses.
///
/// Example: [`Core::image`].
#[derive(Clone, Copy, Debug, PartialEq, Eq, Hash)]
pub enum Verdict {
    /// No clause fails.
    Sound,
    /// A process fails a clause, and none before it does.
    ProcessFails {
        /// The process.
        pid: Pid,
        /// The first clause that it fails, 1 to 7 for P1 to P7.
        clause: u32,
    },
    /// No process fails a clause, but a frame does, and none before it.
    FrameFails {
        /// The frame.
        frame: Frame,
        /// The clause that it fails, 1 to 5 for F1 to F5.
        clause: u32,
    },
}

impl fmt::Display for Verdict {
    fn fmt(&self, to: &mut fmt::Formatter<'_>) -> fmt::Result {
        match self {
            Verdict::Sound => to.write_str("sound"),
            Verdict::ProcessFails { pid, clause } => {
                write!(to, "process {} P{clause}", pid.number())
            }
            Verdict::FrameFails { frame, clause } => write!(to, "frame {} F{clause}", frame.0),
        }
    }
}

/// Why bytes are not checked.
///
/// Example: [`Core::image`].
#[derive(Clone, Copy, Debug, PartialEq, Eq, Hash)]
pub enum ImageFault {
    /// They do not begin with the four bytes of an image.
    NotImage,
    /// They are fewer than 12, or not as many as the number of frames says.
    BadLength,
    /// A version other than 1 and 2.
    BadVersion,
    /// The first field that breaks its rule.
    BadField {
        /// The place of its first byte.
        offset: u32,
    },
    /// Memory ran out for the check.
    NoMemory,
}

impl fmt::Display for ImageFault {
    fn fmt(&self, to: &mut fmt::Formatter<'_>) -> fmt::Result {
        match self {
            ImageFault::NotImage => to.write_str("not an image"),
            ImageFault::BadLength => to.write_str("wrong image length"),
            ImageFault::BadVersion => to.write_str("unknown image version"),
            ImageFault::BadField { offset } => write!(to, "bad field at byte {offset}"),
            ImageFault::NoMemory => NoMemory.fmt(to),
        }
    }
}

impl Error for ImageFault {}

impl From<NoMemory> for ImageFault {
    fn from(NoMemory: NoMemory) -> ImageFault {
        ImageFault::NoMemory
    }
}

/// Why no core is made of an image.
///
/// Example: [`Core::image`].
#[derive(Clone, Copy, Debug, PartialEq, Eq, Hash)]
pub enum RestoreFault {
    /// The library's version is not that of the header for which this crate was written.
    OtherVersion {
        /// The library's version, as [`version`] returns it.
        library: u32,
    },
    /// The bytes encode no image.
    Refused(ImageFault),
    /// The image has the words of version 1.
    OldWords,
    /// The image isn't sound, by this verdict.
    NotSound(Verdict),
    /// Memory ran out for the image, its check or the core.
    NoMemory,
}

impl fmt::Display for RestoreFault {
    fn fmt(&self, to: &mut fmt::Formatter<'_>) -> fmt::Result {
        match self {
            RestoreFault::OtherVersion { library } => {
                write!(to, "the library is of version {library}, and not {VERSION}")
            }
            RestoreFault::Refused(fault) => fault.fmt(to),
            RestoreFault::OldWords => to.write_str("the image is of version 1"),
            RestoreFault::NotSound(verdict) => write!(to, "the image is not sound: {verdict}"),
            RestoreFault::NoMemory => NoMemory.fmt(to),
        }
    }
}

impl Error for RestoreFault {}

impl From<NoMemory> for RestoreFault {
    fn from(NoMemory: NoMemory) -> RestoreFault {
        RestoreFault::NoMemory
    }
}

/// Returns the result of a check; None if the bytes are no image.
pub(crate) fn verdict_of(status: u32, raw: raw::Verdict) -> Result<Option<Verdict>, NoMemory> {
    match status {
        0 => Ok(Some(Verdict::Sound)),
        2 => Err(NoMemory),
        3 => Ok(Some(Verdict::ProcessFails {
            pid: pid_of(raw.number),
            clause: raw.clause,
        })),
        4 => Ok(Some(Verdict::FrameFails {
            frame: Frame(raw.number),
            clause: raw.clause,
        })),
        5 => Ok(None),
        _ => told(None),
    }
}

/// Returns why bytes are no image.
pub(crate) fn fault_of(raw: raw::Verdict) -> ImageFault {
    match raw.clause {
        1 => ImageFault::NotImage,
        2 => ImageFault::BadLength,
        3 => ImageFault::BadVersion,
        4 => ImageFault::BadField { offset: raw.number },
        _ => told(None),
    }
}

/// Checks the image that bytes encode, whatever wrote them.
///
/// Example: [`Core::image`].
///
/// # Errors
///
/// If the bytes encode no image, the first reason against them; `NoMemory` if memory ran out for the check.
pub fn check_image(bytes: &[u8]) -> Result<Verdict, ImageFault> {
    let mut raw = raw::Verdict::default();
    // SAFETY: the pointer and the length are the slice's, whose pointer is never null; both lie apart.
    let status =
        alone(|| unsafe { raw::tower_check_bytes(bytes.as_ptr(), bytes.len(), &raw mut raw) });
    verdict_of(status, raw)?.ok_or_else(|| fault_of(raw))
}

impl Core<'static> {
    /// Makes a core of the image that bytes encode, whatever wrote them. Its state is the one that the image represents,
    /// without any offer, and its image has the same bytes.
    ///
    /// Example: [`Core::image`].
    ///
    /// # Errors
    ///
    /// `OtherVersion` if the linked library's version is not [`VERSION`]. `Refused` if the bytes encode no image, with
    /// the first reason against them. `OldWords` if the image is of version 1. `NotSound` if it isn't sound, with the
    /// verdict of its check. `NoMemory` if memory ran out for it.
    pub fn restore(bytes: &[u8]) -> Result<Core<'static>, RestoreFault> {
        if version() != VERSION {
            return Err(RestoreFault::OtherVersion { library: version() });
        }
        let mut handle = raw::Tower {
            live: false,
            core: null_mut(),
        };
        let mut raw = raw::Verdict::default();
        // SAFETY: the handle is all zeros, and nothing else has it; the pointer and the length are the slice's, whose
        // pointer is never null; all lie apart.
        let (begins, count) = (bytes.as_ptr(), bytes.len());
        let status =
            alone(|| unsafe { raw::tower_restore(begins, count, &raw mut handle, &raw mut raw) });
        match status {
            0 => Ok(Core::of_handle(handle)),
            6 => Err(RestoreFault::OldWords),
            _ => Err(match verdict_of(status, raw)? {
                Some(verdict) => RestoreFault::NotSound(verdict),
                None => RestoreFault::Refused(fault_of(raw)),
            }),
        }
    }
}

impl Core<'_> {
    /// Writes the core's image, and returns how many bytes it has, of which fewer may fit; none is then written.
    fn write_image(&self, bytes: &mut [u8]) -> Result<usize, CoreImageFault> {
        let (begins, count, mut length) = (bytes.as_mut_ptr(), bytes.len(), 0);
        // SAFETY: the handle was booted; as a `Core` is not `Sync`, no other call has it; all lie apart.
        let status =
            alone(|| unsafe { raw::tower_image(self.handle(), begins, count, &raw mut length) });
        match status {
            0 | 3 => Ok(length),
            4 => Err(CoreImageFault::TooManyFrames),
            _ => Err(CoreImageFault::NoMemory),
        }
    }

    /// Returns the bytes of the core's image, whose format is in docs/IMAGES.md.
    ///
    /// ```
    /// use tower::{Core, ImageFault, Pid, RestoreFault, Size, Vaddr, Verdict, check_image};
    ///
    /// let mut core = Core::boot(16)?;
    /// let addr = Vaddr(0x4000_0000);
    /// core.store(Pid::ROOT, addr, Size::Four, 7)?.ignore();
    /// assert_eq!(core.check()?, Verdict::Sound);
    /// let mut image = core.image()?;
    /// let mut again = Core::restore(&image)?;
    /// assert_eq!(again.load(Pid::ROOT, addr, Size::Four)?, 7);
    ///
    /// image[3] = 0; // (no longer the bytes of an image)
    /// assert_eq!(check_image(&image), Err(ImageFault::NotImage));
    /// let refused = Core::restore(&image).err();
    /// assert_eq!(refused, Some(RestoreFault::Refused(ImageFault::NotImage)));
    /// # Ok::<(), Box<dyn std::error::Error>>(())
    /// ```
    ///
    /// # Errors
    ///
    /// `TooManyFrames` if the core has more than 4,096 frames. Otherwise `NoMemory` if memory ran out for it.
    pub fn image(&self) -> Result<Vec<u8>, CoreImageFault> {
        let length = self.write_image(&mut [])?;
        let mut bytes = Vec::new();
        let reserved = bytes.try_reserve_exact(length);
        reserved.map_err(|_| CoreImageFault::NoMemory)?;
        bytes.resize(length, 0);
        self.write_image(&mut bytes)?;
        Ok(bytes)
    }

    /// Checks the core's own image, where it lies: of a core of any size. Any verdict but `Sound` says that something
    /// else has written in the core's memory.
    ///
    /// Example: [`Core::image`].
    ///
    /// # Errors
    ///
    /// If memory ran out for it.
    ///
    /// # Panics
    ///
    /// Never: a core has an image.
    pub fn check(&self) -> Result<Verdict, NoMemory> {
        let mut raw = raw::Verdict::default();
        // SAFETY: as for `write_image`.
        let status = alone(|| unsafe { raw::tower_check(self.handle(), &raw mut raw) });
        verdict_of(status, raw).map(|verdict| verdict.expect("a core has an image"))
    }
}
