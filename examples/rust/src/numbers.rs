//! Events as numbers, as a plugin passes them.

use crate::raw;
use crate::words::{Call, Event, Page, Pid, Size, Vaddr};
use ::core::error::Error;
use ::core::fmt;

/// An event as numbers, which [`Event::try_from`] checks. The numbers of calls, and what each takes, are those of
/// `enum tower_call` in tower.h. What a call doesn't take is not read.
///
/// A host sets `pid` itself. A plugin that may name its process can name another's.
///
/// ```
/// use tower::{Call, Event, NoEvent, Numbers, Page, Pid};
///
/// // (a plugin of process 3 maps page 0x40000, to read and write)
/// let numbers = Numbers { pid: 3, call: 2, flag: 1, words: [0x40000, 0, 0] };
/// let event = Event::try_from(numbers)?;
/// assert_eq!(event.call, Call::Map { page: Page(0x40000), write: true });
/// assert_eq!((event.pid, event.to_string()), (Pid::new(3).unwrap(), "0 3 map 40000 rw".into()));
/// assert_eq!(Numbers::from(&event), numbers);
///
/// let wrong = Event::try_from(Numbers { flag: 2, ..numbers });
/// assert_eq!(wrong, Err(NoEvent::Right(2)));
/// assert_eq!(wrong.unwrap_err().to_string(), "2 is no right, which is 0 (ro) or 1 (rw)");
/// # Ok::<(), NoEvent>(())
/// ```
#[derive(Clone, Copy, Debug, Default, PartialEq, Eq, Hash)]
pub struct Numbers {
    /// The process that makes the call, 0 to 63.
    pub pid: u32,
    /// The call, 0 to 12.
    pub call: u32,
    /// The size of a load or a store, 1, 2 or 4; or the right of a map, a protect or an offer, 0 or 1.
    pub flag: u32,
    /// The first, the second and the third number that the call takes.
    pub words: [u64; 3],
}

/// Why numbers are no event: the first of them that is wrong, in the order call, process, flag, words.
///
/// [`Numbers`] has an example.
#[derive(Clone, Copy, Debug, PartialEq, Eq, Hash)]
pub enum NoEvent {
    /// No call has this number.
    Call(u32),
    /// No process has this number: that of the caller, of a target or of a giver.
    Process(u64),
    /// No access has this size.
    Size(u32),
    /// No right has this number.
    Right(u32),
    /// An address, a page, a value or a quota has more than 32 bits.
    Wide(u64),
}

impl fmt::Display for NoEvent {
    fn fmt(&self, to: &mut fmt::Formatter<'_>) -> fmt::Result {
        match self {
            NoEvent::Call(number) => write!(to, "{number} is no call, which is 0 to 12"),
            NoEvent::Process(number) => write!(to, "{number} is no process, which is 0 to 63"),
            NoEvent::Size(number) => write!(to, "{number} is no size, which is 1, 2 or 4"),
            NoEvent::Right(number) => {
                write!(to, "{number} is no right, which is 0 (ro) or 1 (rw)")
            }
            NoEvent::Wide(word) => write!(to, "{word:#x} has more than 32 bits"),
        }
    }
}

impl Error for NoEvent {}

fn process(number: u64) -> Result<Pid, NoEvent> {
    let found = u8::try_from(number).ok().and_then(Pid::new);
    found.ok_or(NoEvent::Process(number))
}

fn size(number: u32) -> Result<Size, NoEvent> {
    match number {
        1 => Ok(Size::One),
        2 => Ok(Size::Two),
        4 => Ok(Size::Four),
        _ => Err(NoEvent::Size(number)),
    }
}

fn right(number: u32) -> Result<bool, NoEvent> {
    match number {
        0 => Ok(false),
        1 => Ok(true),
        _ => Err(NoEvent::Right(number)),
    }
}

fn word(word: u64) -> Result<u32, NoEvent> {
    u32::try_from(word).map_err(|_| NoEvent::Wide(word))
}

impl Numbers {
    /// The call, whose number is 0 to 12.
    fn to_call(self) -> Result<Call, NoEvent> {
        let Numbers {
            call, flag, words, ..
        } = self;
        let [first, second, third] = words;
        let addr = || word(first).map(Vaddr);
        let page = || word(first).map(Page);
        Ok(match call {
            0 => Call::Load {
                size: size(flag)?,
                addr: addr()?,
            },
            1 => Call::Store {
                size: size(flag)?,
                addr: addr()?,
                value: word(second)?,
            },
            2 => Call::Map {
                write: right(flag)?,
                page: page()?,
            },
            3 => Call::Unmap { page: page()? },
            4 => Call::Protect {
                write: right(flag)?,
                page: page()?,
            },
            5 => Call::Info { page: page()? },
            6 => Call::Offer {
                write: right(flag)?,
                page: page()?,
                target: process(second)?,
            },
            7 => Call::Withdraw {
                page: page()?,
                target: process(second)?,
            },
            8 => Call::Accept {
                giver_page: page()?,
                giver: process(second)?,
                page: word(third).map(Page)?,
            },
            9 => Call::Spawn {
                quota: word(first)?,
            },
            10 => Call::Exit,
            11 => Call::Quota,
            12 => Call::Fork {
                quota: word(first)?,
            },
            _ => return Err(NoEvent::Call(call)),
        })
    }
}

impl TryFrom<Numbers> for Event {
    type Error = NoEvent;

    /// Returns the event that the numbers are, from CPU 0.
    ///
    /// # Errors
    ///
    /// The first number that is wrong. None is cut off and becomes another.
    fn try_from(numbers: Numbers) -> Result<Event, NoEvent> {
        if numbers.call > 12 {
            return Err(NoEvent::Call(numbers.call));
        }
        let pid = process(numbers.pid.into())?;
        let call = numbers.to_call()?;
        Ok(Event { cpu: 0, pid, call })
    }
}

impl From<&Event> for Numbers {
    /// Returns the event's numbers. Those that the call doesn't take are 0.
    fn from(event: &Event) -> Numbers {
        let raw = raw::Event::from(event);
        Numbers {
            pid: raw.pid.into(),
            call: raw.call.into(),
            flag: raw.flag.into(),
            words: [raw.first, raw.second, raw.third].map(u64::from),
        }
    }
}

#[cfg(test)]
mod tests {
    use super::{Event, NoEvent, Numbers, raw};
    use crate::core::Core;

    /// The kind of the library's reply to these numbers.
    fn kind_of(core: &mut Core, numbers: Numbers) -> u32 {
        let Numbers {
            pid,
            call,
            flag,
            words,
        } = numbers;
        let byte = |number: u32| u8::try_from(number).unwrap();
        let word = |place: usize| u32::try_from(words[place]).unwrap();
        let event = raw::Event {
            cpu: 0,
            pid: byte(pid),
            call: byte(call),
            flag: byte(flag),
            first: word(0),
            second: word(1),
            third: word(2),
        };
        let mut reply = raw::Reply::default();
        // SAFETY: as for `Core::step`.
        unsafe { raw::tower_step(core.handle_mut(), &raw const event, &raw mut reply) };
        reply.kind
    }

    #[test]
    fn numbers_are_an_event_if_the_library_takes_them() {
        let mut core = Core::boot(64).unwrap();
        let mut counts = [0; 2];
        for call in 0..=16 {
            for pid in [0, 1, 63, 64, 255] {
                for flag in [0, 1, 2, 3, 4, 5, 255] {
                    for second in [0, 63, 64, 0xffff_ffff] {
                        let words = [0x40000, second, 0x40001];
                        let numbers = Numbers {
                            pid,
                            call,
                            flag,
                            words,
                        };
                        let event = Event::try_from(numbers);
                        let is_none = kind_of(&mut core, numbers) == 7;
                        assert_eq!(event.is_err(), is_none, "{numbers:?}: {event:?}");
                        counts[usize::from(is_none)] += 1;
                        if let Ok(event) = event {
                            assert_eq!(Event::try_from(Numbers::from(&event)), Ok(event));
                        }
                    }
                }
            }
        }
        assert!(counts.iter().all(|&count| count > 500), "{counts:?}");
    }

    #[test]
    fn no_word_is_cut_off() {
        const FAR: u64 = 1 << 32;
        let near = Numbers {
            pid: 1,
            call: 8,
            flag: 1,
            words: [0x40000, 2, 0x40001],
        };
        for place in 0..3 {
            let mut far = near;
            far.words[place] += FAR;
            let word = far.words[place];
            let wanted = if place == 1 {
                NoEvent::Process(word)
            } else {
                NoEvent::Wide(word)
            };
            assert_eq!(Event::try_from(far), Err(wanted));
        }
        for (call, place) in [
            (0, 0),
            (1, 0),
            (1, 1),
            (2, 0),
            (3, 0),
            (4, 0),
            (5, 0),
            (6, 0),
        ]
        .into_iter()
        .chain([(7, 0), (9, 0), (12, 0)])
        {
            let mut far = Numbers { call, ..near };
            far.words[place] += FAR;
            let wanted = Err(NoEvent::Wide(far.words[place]));
            assert_eq!(Event::try_from(far), wanted, "call {call}");
        }
        assert!(Event::try_from(near).is_ok());
    }
}
