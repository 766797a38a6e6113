//! The line simulator: an engine on one lent buffer, its plan, its calendar, an account of what its log costs, and all small lists of calls.
//!
//! The calls are proved (see `docs/READING.md`); this crate adds slices and `Result`s. Every call takes any bytes and any numbers: nothing has to be tested first, a
//! refusal changes nothing, and no call reads or writes outside of what it is lent.
//!
//! ```no_run
//! use jambfennel::{Engine, Matter};
//! # fn main() -> Result<(), jambfennel::Refusal> {
//! let plan = std::fs::read("plan.bin").unwrap_or_default();
//! // two stations, arity 16, leaf width 64, 64 held events at most
//! let mut buffer = vec![0; Engine::bytes(16, 2, 64)];
//! let mut engine = Engine::open(&plan, 16, 64, 64, &mut buffer)?;
//! engine.post(1, 0, Matter::Reading)?;
//! while engine.run_lowest().is_ok_and(|run| run.undone == 0) {
//!     let mut output = [0; 64 * 24];
//!     if let Ok(log) = engine.commit(1_000, &mut output) {
//!         for entry in log {
//!             println!("{entry:?}");
//!         }
//!         break;
//!     }
//! }
//! # Ok(())
//! # }
//! ```
use std::fmt;

mod calls;
pub mod account;
pub mod calendar;
pub mod plan;
pub mod small_lists;

pub use account::Account;
pub use calendar::Calendar;
pub use plan::{Config, Plan, Station};

/// The last time of an event.
pub const HORIZON: u64 = 1_099_511_627_775;

/// The source of a post.
pub const POSTED: u16 = 65_535;

/// The arities that an opening takes. A calendar's ring is 16 blocks of arity squared leaves, so it covers 16 times arity squared times the leaf width, in ms; later
/// times wait in its overflow table. Every other number is refused with 26.
pub const ARITIES: [u64; 4] = [8, 16, 32, 64];

// The calendar's bytes but for the stations'. None at an arity that is refused, so that a buffer for it can still be made.
pub(crate) const fn block_bytes(arity: u64) -> usize {
    match arity {
        8 | 16 | 32 | 64 => 128 * (arity * arity) as usize,
        _ => 0,
    }
}

/// Why a call did nothing: the paper's number, and the station for 2, 4 and 5.
#[derive(Clone, Copy, PartialEq, Eq, Debug)]
pub struct Refusal {
    pub number: u64,
    pub station: Option<u64>,
}

impl fmt::Display for Refusal {
    fn fmt(&self, f: &mut fmt::Formatter) -> fmt::Result {
        let text = match self.number {
            1 => "the plan's shape is wrong",
            2 => "a pair of the plan is wrong",
            3 => "bytes follow the plan's last record",
            4 => "a number of a record is out of range",
            5 => "a name has a byte out of range",
            6 => "the leaf width is out of range",
            7 => "the capacity or the number of stations is out of range, or the buffer is too short",
            8 => "no such command",
            9 => "no such station",
            10 => "the kind is none, or its value does not suit it",
            11 => "the time is after the horizon",
            12 => "the time is before the commit time",
            13 => "no held post has that number",
            14 => "no event is unrun",
            15 => "an unrun event lies before the commit time",
            16 => "a count would pass 32 bits",
            17 => "too few places are free",
            18 => "the output is too short",
            19 => "the part of a log is no multiple of 24 bytes, or an entry is out of range",
            20 => "a charge would pass 64 bits",
            26 => "the arity is not 8, 16, 32 or 64",
            _ => "unknown",
        };
        write!(f, "refusal {}: {}", self.number, text)?;
        match self.station {
            Some(station) => write!(f, " (station {station})"),
            None => Ok(()),
        }
    }
}

impl std::error::Error for Refusal {}

pub(crate) fn refusal(code: u64, at: u64) -> Refusal {
    Refusal { number: code, station: matches!(code, 2 | 4 | 5).then_some(at) }
}

/// What an event carries.
#[derive(Clone, Copy, PartialEq, Eq, Debug)]
pub enum Matter {
    Reading,
    /// A frame, with the station that it comes from and the repeats made, at most 3.
    Frame { origin: u8, repeats: u8 },
    /// The level in mm.
    Level(u32),
}

impl Matter {
    fn numbers(self) -> (u64, u64) {
        match self {
            Matter::Reading => (1, 0),
            Matter::Frame { origin, repeats } => (2, u64::from(origin) + 256 * u64::from(repeats)),
            Matter::Level(mm) => (3, mm.into()),
        }
    }
}

/// An accepted post.
#[derive(Clone, Copy, PartialEq, Eq, Debug)]
pub struct Posted {
    pub number: u64,
    pub undone: u64,
}

/// An accepted run of a station.
#[derive(Clone, Copy, PartialEq, Eq, Debug)]
pub struct Run {
    pub station: u64,
    pub undone: u64,
}

/// An accepted run of the lowest, with how many bitmap words were read to find it: 2 to 17, by the arity and the leaf width. `make benchmark-widths` and `make
/// benchmark-shapes` have tables of means.
#[derive(Clone, Copy, PartialEq, Eq, Debug)]
pub struct RunLowest {
    pub station: u64,
    pub undone: u64,
    pub words: u64,
}

/// The station that `run_lowest` would run, with the time of its event.
#[derive(Clone, Copy, PartialEq, Eq, Debug)]
pub struct Next {
    pub station: u64,
    pub time: u64,
}

/// How a run to a time ended.
#[derive(Clone, Copy, PartialEq, Eq, Debug)]
pub enum Until {
    /// Every event before the time is committed, and the time is the commit time.
    Done,
    /// The places are full of events at this time or after it, with nothing left to commit: this is the commit time.
    Busy { time: u64 },
    /// The turns were too few: another call goes on.
    Unfinished,
}

/// A station's state.
#[derive(Clone, Copy, PartialEq, Eq, Debug, Default)]
pub struct State {
    pub draw: u32,
    pub level: u32,
    pub heard: u32,
    pub lost: u32,
    pub sent: u32,
    /// The time of the last frame heard, if there has been one.
    pub last: Option<u64>,
}

/// A committed event.
#[derive(Clone, Copy, PartialEq, Eq, PartialOrd, Ord, Debug)]
pub struct Entry {
    pub time: u64,
    pub target: u16,
    pub source: u16,
    pub number: u32,
    pub kind: u32,
    /// Of a frame its origin and 256 times its repeats: `matter` takes them apart.
    pub value: u32,
}

impl Entry {
    /// What the event carries; nothing where the kind and the value are none that a commit writes.
    pub fn matter(&self) -> Option<Matter> {
        match (self.kind, self.value) {
            (1, 0) => Some(Matter::Reading),
            (2, value @ 0..=1023) => Some(Matter::Frame { origin: (value % 256) as u8, repeats: (value / 256) as u8 }),
            (3, mm) => Some(Matter::Level(mm)),
            _ => None,
        }
    }

    /// The event of the 24 bytes that a commit writes.
    pub fn of(bytes: &[u8; 24]) -> Entry {
        let word = |at: usize| u32::from_le_bytes(bytes[at..at + 4].try_into().unwrap());
        let half = |at: usize| u16::from_le_bytes(bytes[at..at + 2].try_into().unwrap());
        Entry {
            time: u64::from_le_bytes(bytes[..8].try_into().unwrap()),
            number: word(8),
            value: word(12),
            target: half(16),
            source: half(18),
            kind: word(20),
        }
    }
}

/// The log of a commit, in the event order.
#[derive(Clone, Debug)]
pub struct Log<'o>(&'o [u8]);

impl<'o> Log<'o> {
    /// Its bytes, 24 an event.
    pub fn bytes(&self) -> &'o [u8] {
        self.0
    }
}

impl AsRef<[u8]> for Log<'_> {
    fn as_ref(&self) -> &[u8] {
        self.0
    }
}

impl Iterator for Log<'_> {
    type Item = Entry;

    fn next(&mut self) -> Option<Entry> {
        let (first, rest) = self.0.split_first_chunk()?;
        self.0 = rest;
        Some(Entry::of(first))
    }

    fn size_hint(&self) -> (usize, Option<usize>) {
        (self.0.len() / 24, Some(self.0.len() / 24))
    }
}

impl ExactSizeIterator for Log<'_> {}

/// An engine on a lent buffer.
#[derive(Debug)]
pub struct Engine<'b> {
    bytes: &'b mut [u8],
}

impl<'b> Engine<'b> {
    /// How many bytes are enough for so many stations and held events at one of the four arities.
    pub const fn bytes(arity: u64, stations: usize, capacity: usize) -> usize {
        block_bytes(arity) + 256 * stations + 256 * capacity
    }

    /// Opens a plan, with a calendar of that arity (8, 16, 32 or 64) and leaf width. No answer of a call after it depends on what the buffer held, and none but the
    /// words of `run_lowest` on the arity and the width. Refusals: 1 to 5, 26, 6, 7.
    pub fn open(plan: &(impl AsRef<[u8]> + ?Sized), arity: u64, width: u64, capacity: u64, buffer: &'b mut [u8]) -> Result<Engine<'b>, Refusal> {
        calls::open(plan.as_ref(), arity, width, capacity, buffer)?;
        Ok(Engine { bytes: buffer })
    }

    /// Goes on with a buffer that an engine has left. On other bytes every call still ends and stays in the buffer, with answers that mean nothing.
    pub fn resume(buffer: &'b mut [u8]) -> Engine<'b> {
        Engine { bytes: buffer }
    }

    /// Posts an event. Refusals: 9, 10, 11, 12, 16, 17.
    pub fn post(&mut self, station: u64, time: u64, matter: Matter) -> Result<Posted, Refusal> {
        let (kind, value) = matter.numbers();
        self.post_numbers(station, time, kind, value)
    }

    /// The same, of a kind and a value as numbers.
    pub fn post_numbers(&mut self, station: u64, time: u64, kind: u64, value: u64) -> Result<Posted, Refusal> {
        let [number, undone] = calls::post(self.bytes, station, time, kind, value)?;
        Ok(Posted { number, undone })
    }

    /// Removes the held post with that number, and answers how many events are undone. Refusal: 13.
    pub fn retract(&mut self, number: u64) -> Result<u64, Refusal> {
        let [undone, _] = calls::retract(self.bytes, number)?;
        Ok(undone)
    }

    /// Runs the station's least unrun event. Refusals: 9, 14, 16, 17.
    pub fn run_station(&mut self, station: u64) -> Result<Run, Refusal> {
        let [station, undone] = calls::run_station(self.bytes, station)?;
        Ok(Run { station, undone })
    }

    /// Runs the least unrun event of the lowest-numbered station of the lowest time. Refusals: 14, 16, 17.
    pub fn run_lowest(&mut self) -> Result<RunLowest, Refusal> {
        let [station, undone, words] = calls::run_lowest(self.bytes)?;
        Ok(RunLowest { station, undone, words })
    }

    /// Writes the events before a time into the output, 24 bytes each, and drops them. Refusals: 11, 12, 15, 18.
    pub fn commit<'o>(&mut self, time: u64, output: &'o mut [u8]) -> Result<Log<'o>, Refusal> {
        let [count, _] = calls::commit(self.bytes, time, output)?;
        let end = output.len().min(24 * count as usize);
        Ok(Log(&output[..end]))
    }

    /// The station of the least unrun time, with that time. Refusal: 14.
    pub fn next(&self) -> Result<Next, Refusal> {
        let [station, time] = calls::next(self.bytes)?;
        Ok(Next { station, time })
    }

    /// Runs and commits all events before a time, in at most so many turns of 256 runs. Each commit's log goes to the output's start, over the one before: 24 bytes for
    /// each place of the engine are enough. Events at the time or after it may be run too, and wait for a later commit. Refusals: 11, 12, 16, 18; the calls before the
    /// refused one have been made.
    pub fn run_until(&mut self, time: u64, turns: u64, output: &mut [u8]) -> Result<Until, Refusal> {
        match calls::run_until(self.bytes, time, turns, output) {
            (0, _) => Ok(Until::Done),
            (17, time) => Ok(Until::Busy { time }),
            (256, _) => Ok(Until::Unfinished),
            (code, _) => Err(refusal(code, 0)),
        }
    }

    /// A station's state as of the commit time. Refusal: 9.
    pub fn record(&self, station: u64) -> Result<State, Refusal> {
        let [numbers @ .., last, reached] = calls::record(self.bytes, station)?;
        let [draw, level, heard, lost, sent] = numbers.map(|number| number as u32);
        Ok(State { draw, level, heard, lost, sent, last: (reached != 0).then_some(last) })
    }
}
