//! The plan of a line: its bytes, and its stations as records.
use crate::{calls, Refusal};

/// A station's numbers. Times are in ms, the threshold in mm.
#[repr(C)]
#[derive(Clone, Copy, PartialEq, Eq, Debug, Default)]
pub struct Config {
    pub parent: u16,
    pub calm: u32,
    pub spring: u32,
    pub threshold: u32,
    pub hop: u32,
    pub noise: u32,
    pub seed: u32,
}

/// A station of a plan: its numbers and its name.
#[repr(C)]
#[derive(Clone, Copy, Debug, Default)]
pub struct Station {
    pub config: Config,
    name: [u8; 16],
    len: usize,
}

// The layout that the proved calls have.
const _: () = assert!(std::mem::size_of::<Config>() == 28 && std::mem::size_of::<Station>() == 56 && std::mem::offset_of!(Station, len) == 48);

impl Station {
    /// A name of over 16 bytes, or with a byte outside 0x21 to 0x7E, is refused where the plan is written (5).
    pub fn new(config: Config, name: &[u8]) -> Station {
        let mut kept = [0; 16];
        let some = name.len().min(16);
        kept[..some].copy_from_slice(&name[..some]);
        Station { config, name: kept, len: name.len() }
    }

    /// Its name; the first 16 bytes of one that is too long.
    pub fn name(&self) -> &[u8] {
        &self.name[..self.len.min(16)]
    }
}

/// Two records are equal when their numbers and names are.
impl PartialEq for Station {
    fn eq(&self, other: &Station) -> bool {
        self.config == other.config && self.len == other.len && self.name() == other.name()
    }
}

impl Eq for Station {}

/// The bytes of an accepted plan.
#[derive(Clone, Copy, Debug)]
pub struct Plan<'p> {
    bytes: &'p [u8],
    count: usize,
}

impl<'p> Plan<'p> {
    /// Reads a plan. Refusals: 1 to 5.
    pub fn read(bytes: &'p [u8]) -> Result<Plan<'p>, Refusal> {
        let [count, _] = calls::judge(bytes)?;
        Ok(Plan { bytes, count: count as usize })
    }

    /// Writes a plan of these stations into the output. Refusals: 1, 4, 5, 18.
    pub fn write(stations: &[Station], output: &'p mut [u8]) -> Result<Plan<'p>, Refusal> {
        let [len, _] = calls::write_plan(stations, output)?;
        let end = output.len().min(len as usize);
        Ok(Plan { bytes: &output[..end], count: stations.len() })
    }

    /// How many bytes are enough for so many stations.
    pub const fn bytes_for(stations: usize) -> usize {
        2 + 50 * stations
    }

    /// Its bytes.
    pub fn bytes(&self) -> &'p [u8] {
        self.bytes
    }

    /// How many stations it has.
    pub fn count(&self) -> usize {
        self.count
    }

    /// Its stations, into a lent list; those after the last are left as they were. Refusal: 18.
    pub fn read_into<'s>(&self, stations: &'s mut [Station]) -> Result<&'s mut [Station], Refusal> {
        let [count, _] = calls::read_plan(self.bytes, stations)?;
        let end = stations.len().min(count as usize);
        Ok(&mut stations[..end])
    }

    /// Its stations, in a list of their own.
    pub fn stations(&self) -> Vec<Station> {
        let mut stations = vec![Station::default(); self.count];
        let read = self.read_into(&mut stations).map_or(0, |read| read.len());
        stations.truncate(read);
        stations
    }

    /// A station's name, as that part of the plan's bytes. Refusal: 9.
    pub fn name(&self, station: u64) -> Result<&'p [u8], Refusal> {
        let [from, len] = calls::name(self.bytes, station)?.map(|number| number as usize);
        let end = self.bytes.len().min(from.saturating_add(len));
        Ok(&self.bytes[from.min(end)..end])
    }
}

impl AsRef<[u8]> for Plan<'_> {
    fn as_ref(&self) -> &[u8] {
        self.bytes
    }
}
