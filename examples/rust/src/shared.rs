//! A core that threads share: it passes from one to the other (`crates/tower_threads`).

use crate::alone::alone;
use crate::core::Core;
use crate::raw;
use crate::words::{Container, Pid};
use ::core::array;
use ::core::cell::UnsafeCell;
use ::core::error::Error;
use ::core::fmt;
use ::core::hint::spin_loop;
use ::core::marker::PhantomData;
use ::core::mem::ManuallyDrop;
use ::core::ops::{Deref, DerefMut};
use ::core::ptr::null_mut;

/// Why a core was not shared.
#[derive(Clone, Copy, Debug, PartialEq, Eq, Hash)]
pub enum ShareFault {
    /// The CPUs are not 1 to 8, or the monitors more than 8.
    BadCount,
    /// Memory ran out.
    NoMemory,
}

impl fmt::Display for ShareFault {
    fn fmt(&self, to: &mut fmt::Formatter<'_>) -> fmt::Result {
        to.write_str(match self {
            ShareFault::BadCount => "not 1 to 8 CPUs, or more than 8 monitors",
            ShareFault::NoMemory => "out of memory",
        })
    }
}

impl Error for ShareFault {}

/// Why the core was not taken.
#[derive(Clone, Copy, Debug, PartialEq, Eq, Hash)]
pub enum Absent {
    /// Another CPU has it: try again.
    Busy,
    /// A CPU keeps it for good.
    Kept,
    /// The history has more than this CPU can know. No run gets here; no clause says so.
    NoTurn,
}

impl fmt::Display for Absent {
    fn fmt(&self, to: &mut fmt::Formatter<'_>) -> fmt::Result {
        to.write_str(match self {
            Absent::Busy => "another CPU has the core",
            Absent::Kept => "a CPU keeps the core",
            Absent::NoTurn => "the history has more than this CPU can know",
        })
    }
}

impl Error for Absent {}

/// One thread's handle of a shared core.
pub struct Cpu<'block> {
    handle: UnsafeCell<raw::TowerCpu>,
    block: PhantomData<&'block mut [u8]>,
}

// SAFETY: `Send` of the handle is proved, in crates/tower_threads.
unsafe impl Send for Cpu<'_> {}

/// A reader's handle, which needs no core.
pub struct Monitor<'block> {
    handle: UnsafeCell<raw::TowerMonitor>,
    block: PhantomData<&'block mut [u8]>,
}

// SAFETY: as for `Cpu`.
unsafe impl Send for Monitor<'_> {}

/// A report on a core that was given back.
#[derive(Clone, Copy, Debug)]
pub struct Report {
    /// How often the core was given back before it.
    pub count: u64,
    rows: [raw::Row; 64],
}

impl Report {
    /// What it says of a process; None if that was not live. A report counts no children.
    #[must_use]
    pub fn container(&self, pid: Pid) -> Option<Container> {
        let row = &self.rows[usize::from(pid.number())];
        let parent = Pid::new(row.parent).filter(|_| row.live)?;
        Some(Container {
            parent,
            quota: row.quota,
            used: row.used,
            given: row.given,
            children: 0,
        })
    }
}

impl<'block> Core<'block> {
    /// Shares the core among CPUs and monitors, whose numbers the types of the arrays say. The report on it is published.
    ///
    /// ```
    /// use tower::{Absent, Core, Pid, Size, Vaddr};
    ///
    /// let shared = Core::boot(16)?.share().map_err(|(_, fault)| fault);
    /// let ([mut one, mut other], [mut monitor]) = shared?;
    /// let mut core = one.take()?;
    /// assert_eq!(other.try_take().err(), Some(Absent::Busy));
    /// core.store(Pid::ROOT, Vaddr(0x4000_0000), Size::Four, 7)?.ignore();
    /// core.publish(); // (which gives the core back, as a drop does)
    /// assert_eq!(monitor.read().container(Pid::ROOT).unwrap().used, 3);
    /// let mut core = other.take()?.keep();
    /// assert_eq!(core.load(Pid::ROOT, Vaddr(0x4000_0000), Size::Four)?, 7);
    /// assert_eq!(one.take().err(), Some(Absent::Kept));
    /// # Ok::<(), Box<dyn std::error::Error>>(())
    /// ```
    ///
    /// # Errors
    ///
    /// The core, with `BadCount` if these are not 1 to 8 CPUs or more than 8 monitors, and otherwise `NoMemory`.
    #[allow(clippy::type_complexity)]
    pub fn share<const CPUS: usize, const MONITORS: usize>(
        mut self,
    ) -> Result<([Cpu<'block>; CPUS], [Monitor<'block>; MONITORS]), (Core<'block>, ShareFault)>
    {
        let mut cpus = [const {
            raw::TowerCpu {
                live: false,
                cpu: null_mut(),
            }
        }; CPUS];
        let mut monitors = [const {
            raw::TowerMonitor {
                live: false,
                monitor: null_mut(),
            }
        }; MONITORS];
        // SAFETY: the core's handle was booted and is borrowed alone; the others are all zeros, and lie apart.
        let status = alone(|| unsafe {
            raw::tower_share(
                self.handle_mut(),
                cpus.as_mut_ptr(),
                CPUS,
                monitors.as_mut_ptr(),
                MONITORS,
            )
        });
        match status {
            // (the core's handle is empty now, and its drop frees nothing)
            0 => Ok((
                array::from_fn(|k| Cpu {
                    handle: UnsafeCell::new(raw::TowerCpu { ..cpus[k] }),
                    block: PhantomData,
                }),
                array::from_fn(|k| Monitor {
                    handle: UnsafeCell::new(raw::TowerMonitor { ..monitors[k] }),
                    block: PhantomData,
                }),
            )),
            1 => Err((self, ShareFault::BadCount)),
            _ => Err((self, ShareFault::NoMemory)),
        }
    }
}

impl<'block> Cpu<'block> {
    /// Takes the core, if no other CPU has it. It never waits.
    ///
    /// # Errors
    ///
    /// Why it was not taken.
    pub fn try_take(&mut self) -> Result<Taken<'_, 'block>, Absent> {
        let handle = self.handle_taken()?;
        Ok(self.taken(handle))
    }

    /// Takes the core, and tries again while another CPU has it.
    ///
    /// # Errors
    ///
    /// `Kept` or `NoTurn`.
    pub fn take(&mut self) -> Result<Taken<'_, 'block>, Absent> {
        let handle = loop {
            match self.handle_taken() {
                Err(Absent::Busy) => spin_loop(),
                other => break other?,
            }
        };
        Ok(self.taken(handle))
    }

    /// A handle with the core, if no other CPU has it.
    fn handle_taken(&mut self) -> Result<raw::Tower, Absent> {
        let mut handle = raw::Tower {
            live: false,
            core: null_mut(),
        };
        // SAFETY: the CPU's handle was made by `tower_share` and is borrowed alone; the other is all zeros.
        match unsafe { raw::tower_cpu_take(self.handle.get_mut(), &raw mut handle) } {
            0 => Ok(handle),
            1 => Err(Absent::Busy),
            2 => Err(Absent::Kept),
            _ => Err(Absent::NoTurn),
        }
    }

    /// The core that this CPU has taken into a handle.
    fn taken(&mut self, handle: raw::Tower) -> Taken<'_, 'block> {
        Taken {
            core: ManuallyDrop::new(Core::of_block(handle)),
            cpu: self,
            publish: false,
        }
    }

    /// How often the core was given back, as far as this CPU knows.
    #[must_use]
    pub fn count(&mut self) -> u64 {
        // SAFETY: as for `try_take`.
        unsafe { raw::tower_cpu_count(self.handle.get_mut()) }
    }
}

impl Drop for Cpu<'_> {
    fn drop(&mut self) {
        // SAFETY: as for `try_take`.
        alone(|| unsafe { raw::tower_cpu_free(self.handle.get_mut()) });
    }
}

/// The core, while this CPU has it. It goes back when this is dropped.
pub struct Taken<'cpu, 'block> {
    cpu: &'cpu mut Cpu<'block>,
    core: ManuallyDrop<Core<'block>>,
    publish: bool,
}

impl<'block> Taken<'_, 'block> {
    /// Gives the core back, and publishes the report on it.
    pub fn publish(mut self) {
        self.publish = true;
    }

    /// Keeps the core for good: no CPU can take it afterwards.
    #[must_use]
    pub fn keep(self) -> Core<'block> {
        let mut this = ManuallyDrop::new(self);
        // SAFETY: as for `try_take`. The core is moved out once, and this is not dropped.
        unsafe {
            let status = raw::tower_cpu_close(this.cpu.handle.get_mut());
            debug_assert_eq!(status, 0, "a core that was taken can be kept");
            ManuallyDrop::take(&mut this.core)
        }
    }
}

impl<'block> Deref for Taken<'_, 'block> {
    type Target = Core<'block>;

    fn deref(&self) -> &Core<'block> {
        &self.core
    }
}

impl<'block> DerefMut for Taken<'_, 'block> {
    fn deref_mut(&mut self) -> &mut Core<'block> {
        &mut self.core
    }
}

impl Drop for Taken<'_, '_> {
    fn drop(&mut self) {
        let handle = self.core.handle_mut();
        // SAFETY: as for `try_take`; this CPU has taken the core, which this has.
        let status =
            unsafe { raw::tower_cpu_give(self.cpu.handle.get_mut(), handle, self.publish) };
        debug_assert_eq!(status, 0, "a core that was taken goes back");
    }
}

impl Monitor<'_> {
    /// Reads the newest report. It needs no core and never waits, and what it reads never goes back.
    pub fn read(&mut self) -> Report {
        let mut report = Report {
            count: 0,
            rows: [raw::Row::default(); 64],
        };
        // SAFETY: the handle was made by `tower_share` and is borrowed alone; the others lie apart.
        unsafe {
            raw::tower_monitor_read(
                self.handle.get_mut(),
                &raw mut report.count,
                report.rows.as_mut_ptr(),
                report.rows.len(),
            );
        }
        report
    }
}

impl Drop for Monitor<'_> {
    fn drop(&mut self) {
        // SAFETY: as for `read`.
        alone(|| unsafe { raw::tower_monitor_free(self.handle.get_mut()) });
    }
}
