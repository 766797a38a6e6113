//! The battery account: what the readings and frames of a committed log cost each station.
use crate::{calls, Refusal};

/// An account on a lent buffer. It reads the logs of commits, and stands apart from the engine that wrote them.
///
/// ```no_run
/// use jambfennel::{Account, Engine};
/// # fn sale(engine: &mut Engine) -> Result<(), jambfennel::Refusal> {
/// // two stations, 5 units a reading, 7 a frame
/// let mut buffer = [0; Account::bytes(2)];
/// let mut account = Account::open(2, 5, 7, &mut buffer)?;
/// let mut output = [0; 64 * 24];
/// let log = engine.commit(1_000, &mut output)?;
/// account.read(&log)?;
/// println!("station 1: {} of {} units", account.charge(1)?, account.total());
/// # Ok(())
/// # }
/// ```
#[derive(Debug)]
pub struct Account<'b> {
    stations: u64,
    bytes: &'b mut [u8],
}

impl<'b> Account<'b> {
    /// How many bytes are enough for so many stations.
    pub const fn bytes(stations: usize) -> usize {
        8 + 8 * stations
    }

    /// Opens an account of so many stations, 1 to 256, with nothing charged: what a reading costs, and a frame. Refusal: 7.
    pub fn open(stations: u64, reading: u32, frame: u32, buffer: &'b mut [u8]) -> Result<Account<'b>, Refusal> {
        calls::open_account(stations, reading, frame, buffer)?;
        Ok(Account { stations, bytes: buffer })
    }

    /// Goes on with a buffer that an account of so many stations has left. Other bytes stand for some account too, and the answers are that one's; 7 where no account
    /// of so many stations fits.
    pub fn resume(stations: u64, buffer: &'b mut [u8]) -> Account<'b> {
        Account { stations, bytes: buffer }
    }

    /// Charges a part of a log, whole or not at all: a reading and a frame at the station that ran it, a lost frame and each repeat too, a level nothing. A part is a
    /// `Log`, or what an iteration has left of it, or the bytes of whole entries; one that is read twice is charged twice. Refusals: 19, 20, and after `resume` 7.
    pub fn read(&mut self, part: &(impl AsRef<[u8]> + ?Sized)) -> Result<(), Refusal> {
        calls::read_part(self.bytes, self.stations, part.as_ref())
    }

    /// A station's charge. Refusals: 9, and after `resume` 7.
    pub fn charge(&self, station: u64) -> Result<u64, Refusal> {
        let [units] = calls::charge(self.bytes, self.stations, station)?;
        Ok(units)
    }

    /// The charges of all stations, in their order; none where `charge` gives 7.
    pub fn charges(&self) -> impl Iterator<Item = u64> + '_ {
        (0..self.stations).map_while(|station| self.charge(station).ok())
    }

    /// Their sum, which can pass 64 bits: after an opening, what a reading costs times the readings plus what a frame costs times the frames of the log read so far.
    pub fn total(&self) -> u128 {
        self.charges().map(u128::from).sum()
    }
}
