//! A core of any size, with its pending offers, as a snapshot that is written to a writer of std and read from a reader
//! of std.

extern crate alloc;
extern crate std;

use crate::VERSION;
use crate::alone::alone;
use crate::core::{Core, version};
use crate::images::{ImageFault, NoMemory, Verdict, fault_of, verdict_of};
use crate::raw;
use crate::words::told;
use ::core::error::Error;
use ::core::fmt;
use ::core::ptr::null_mut;
use alloc::vec::Vec;
use std::io;
use std::io::{Read, Write};

/// How many bytes the record of a frame has.
const RECORD_BYTES: usize = 4116;

/// Why a core was not saved.
///
/// Example: [`Core::save`].
#[derive(Debug)]
pub enum SaveFault {
    /// Memory ran out for the list of offers. Nothing was written.
    NoMemory,
    /// A write failed. A front of the snapshot was written.
    Write(io::Error),
}

impl fmt::Display for SaveFault {
    fn fmt(&self, to: &mut fmt::Formatter<'_>) -> fmt::Result {
        match self {
            SaveFault::NoMemory => NoMemory.fmt(to),
            SaveFault::Write(error) => write!(to, "write failed: {error}"),
        }
    }
}

impl Error for SaveFault {}

impl From<io::Error> for SaveFault {
    fn from(error: io::Error) -> SaveFault {
        SaveFault::Write(error)
    }
}

/// Why no core was resumed.
///
/// Example: [`Core::save`].
#[derive(Debug)]
pub enum ResumeFault {
    /// The library's version is not that of the header for which this crate was written.
    OtherVersion {
        /// The library's version, as [`version`] returns it.
        library: u32,
    },
    /// A read failed.
    Read(io::Error),
    /// The bytes encode no snapshot.
    Refused(ImageFault),
    /// The snapshot isn't sound, by this verdict.
    NotSound(Verdict),
    /// The machine refuses an offer of the snapshot.
    OfferRefused {
        /// The offer's number, from 0.
        number: u32,
    },
    /// Memory ran out for the snapshot, its check or the core.
    NoMemory,
}

impl fmt::Display for ResumeFault {
    fn fmt(&self, to: &mut fmt::Formatter<'_>) -> fmt::Result {
        match self {
            ResumeFault::OtherVersion { library } => {
                write!(to, "the library is of version {library}, and not {VERSION}")
            }
            ResumeFault::Read(error) => write!(to, "read failed: {error}"),
            ResumeFault::Refused(fault) => fault.fmt(to),
            ResumeFault::NotSound(verdict) => write!(to, "the snapshot is not sound: {verdict}"),
            ResumeFault::OfferRefused { number } => write!(to, "offer {number} is refused"),
            ResumeFault::NoMemory => NoMemory.fmt(to),
        }
    }
}

impl Error for ResumeFault {}

impl From<NoMemory> for ResumeFault {
    fn from(NoMemory: NoMemory) -> ResumeFault {
        ResumeFault::NoMemory
    }
}

impl From<io::Error> for ResumeFault {
    fn from(error: io::Error) -> ResumeFault {
        ResumeFault::Read(error)
    }
}

impl Core<'static> {
    /// Makes the core that was stored, with its offers, of all bytes that a reader has left: a snapshot, whatever wrote
    /// it.
    ///
    /// Example: [`Core::save`].
    ///
    /// # Errors
    ///
    /// `OtherVersion` if the linked library's version is not [`VERSION`]. `Read` if a read fails. `Refused` if the
    /// bytes encode no snapshot, with the first reason against them. `NotSound` if it isn't sound, with the verdict of
    /// its check. `OfferRefused` if the machine refuses one of its offers. `NoMemory` if memory ran out for it.
    pub fn resume(mut reader: impl Read) -> Result<Core<'static>, ResumeFault> {
        if version() != VERSION {
            return Err(ResumeFault::OtherVersion { library: version() });
        }
        let mut bytes = Vec::new();
        reader.read_to_end(&mut bytes)?;
        let mut handle = raw::Tower {
            live: false,
            core: null_mut(),
        };
        let mut raw = raw::Verdict::default();
        let (begins, count) = (bytes.as_ptr(), bytes.len());
        // SAFETY: the handle is all zeros, and nothing else has it; the pointer and the length are the vector's, whose
        // pointer is never null; all lie apart.
        let status = alone(|| unsafe {
            raw::tower_restore_whole(begins, count, &raw mut handle, &raw mut raw)
        });
        match status {
            0 => Ok(Core::of_handle(handle)),
            8 => Err(ResumeFault::OfferRefused { number: raw.number }),
            _ => Err(match verdict_of(status, raw)? {
                Some(verdict) => ResumeFault::NotSound(verdict),
                None => ResumeFault::Refused(fault_of(raw)),
            }),
        }
    }
}

impl Core<'_> {
    /// Writes what the core's image begins with, and returns how many bytes it has, of which fewer may fit; none is then
    /// written.
    fn write_front(&self, bytes: &mut [u8]) -> Result<usize, NoMemory> {
        let (begins, count, mut length) = (bytes.as_mut_ptr(), bytes.len(), 0);
        // SAFETY: the handle was booted; as a `Core` is not `Sync`, no other call has it; all lie apart.
        let status = alone(|| unsafe {
            raw::tower_store_front(self.handle(), begins, count, &raw mut length)
        });
        match status {
            0 | 3 => Ok(length),
            _ => Err(NoMemory),
        }
    }

    /// Writes the record of a frame; false if the frame is free, and has none.
    fn write_record(&self, frame: u32, record: &mut [u8; RECORD_BYTES]) -> bool {
        // SAFETY: as for `write_front`.
        let status = alone(|| unsafe {
            raw::tower_store_frame(self.handle(), frame, record.as_mut_ptr(), RECORD_BYTES)
        });
        match status {
            0 => true,
            4 => false,
            _ => told(None),
        }
    }

    /// What the core's image begins with.
    fn front(&self) -> Result<Vec<u8>, NoMemory> {
        let length = self.write_front(&mut [])?;
        let mut bytes = Vec::new();
        bytes.try_reserve_exact(length).map_err(|_| NoMemory)?;
        bytes.resize(length, 0);
        self.write_front(&mut bytes)?;
        Ok(bytes)
    }

    /// Writes the core's snapshot, frame by frame: the whole machine, of any size, with its pending offers. Free frames
    /// are not written. docs/IMAGES.md has its format.
    ///
    /// ```
    /// use tower::{Core, ImageFault, Page, Pid, ResumeFault, Size, Vaddr};
    ///
    /// let mut core = Core::boot_wide(5000)?;
    /// let child = core.spawn(Pid::ROOT, 10)?;
    /// core.store(Pid::ROOT, Vaddr(0x4000_0000), Size::Four, 7)?.ignore();
    /// core.offer(Pid::ROOT, Page(0x40000), child, false)?;
    /// let mut snapshot = Vec::new();
    /// core.save(&mut snapshot)?;
    /// let mut again = Core::resume(&snapshot[..])?; // (its offer is still pending)
    /// again.accept(child, Pid::ROOT, Page(0x40000), Page(0x50000))?.ignore();
    /// assert_eq!(again.load(child, Vaddr(0x5000_0000), Size::Four)?, 7);
    ///
    /// snapshot[3] = 0; // (no longer the bytes of a snapshot)
    /// let refused = Core::resume(&snapshot[..]).err();
    /// assert!(matches!(refused, Some(ResumeFault::Refused(ImageFault::NotImage))));
    /// # Ok::<(), Box<dyn std::error::Error>>(())
    /// ```
    ///
    /// # Errors
    ///
    /// `NoMemory` if memory ran out for the list of offers. `Write` if a write fails.
    pub fn save(&self, mut writer: impl Write) -> Result<(), SaveFault> {
        let front = self.front().map_err(|NoMemory| SaveFault::NoMemory)?;
        writer.write_all(&front)?;
        let mut record = [0; RECORD_BYTES];
        for frame in 0..self.frames() {
            if self.write_record(frame, &mut record) {
                writer.write_all(&record)?;
            }
        }
        Ok(())
    }
}
