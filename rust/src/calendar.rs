//! The calendar by itself: which station has the lowest time.
use crate::{block_bytes, calls, Refusal};

/// A calendar on a lent buffer.
#[derive(Debug)]
pub struct Calendar<'b> {
    bytes: &'b mut [u8],
}

/// The lowest time at which a station is registered, the lowest-numbered station that is, and how many bitmap words were read for it: 2 to 17.
#[derive(Clone, Copy, PartialEq, Eq, Debug)]
pub struct Lowest {
    pub time: u64,
    pub station: u64,
    pub words: u64,
}

impl<'b> Calendar<'b> {
    /// How many bytes are enough for so many stations at one of the four arities.
    pub const fn bytes(arity: u64, stations: usize) -> usize {
        block_bytes(arity) + 64 * stations
    }

    /// Opens a calendar of that arity and leaf width, without registered stations, with its floor at 0. Refusals: 26, 6, 7.
    pub fn open(stations: u64, arity: u64, width: u64, buffer: &'b mut [u8]) -> Result<Calendar<'b>, Refusal> {
        calls::open_calendar(stations, arity, width, buffer)?;
        Ok(Calendar { bytes: buffer })
    }

    /// Goes on with a buffer that a calendar has left. On other bytes every call still ends and stays in the buffer, with answers that mean nothing.
    pub fn resume(buffer: &'b mut [u8]) -> Calendar<'b> {
        Calendar { bytes: buffer }
    }

    /// Registers a station, or moves it. Refusals: 9, 11, 12.
    pub fn register(&mut self, station: u64, time: u64) -> Result<(), Refusal> {
        calls::register(self.bytes, station, time)
    }

    /// Takes a station out, where it is registered. Refusal: 9.
    pub fn unregister(&mut self, station: u64) -> Result<(), Refusal> {
        calls::unregister(self.bytes, station)
    }

    /// The lowest-numbered station of the lowest time. Refusal: 14.
    pub fn lowest(&self) -> Result<Lowest, Refusal> {
        let [time, station, words] = calls::lowest(self.bytes)?;
        Ok(Lowest { time, station, words })
    }

    /// The same, and it is taken out. Refusal: 14.
    pub fn extract(&mut self) -> Result<Lowest, Refusal> {
        let [time, station, words] = calls::extract(self.bytes)?;
        Ok(Lowest { time, station, words })
    }

    /// Raises the floor. Refusals: 11, 12, 15.
    pub fn advance(&mut self, floor: u64) -> Result<(), Refusal> {
        calls::advance(self.bytes, floor)
    }
}
