//! All small command lists: every list of 0 to 3 of seven calls, for checking a logger against the simulator.
use crate::{calls, Config, Engine, Log, Matter, Posted, Refusal, Run, RunLowest, Station};
use std::fmt;

/// How many lists there are.
pub const COUNT: usize = 400;

/// How many bytes they have, four a list.
pub const BYTES: usize = 4 * COUNT;

/// A call of a list. It prints as the bench's command.
#[derive(Clone, Copy, PartialEq, Eq, Debug)]
pub enum Call {
    Run,
    RunStation(u64),
    Post { station: u64, time: u64, matter: Matter },
    Retract(u64),
    Commit(u64),
}

/// The calls that the lists are made of: each one's number is its place here.
pub const CALLS: [Call; 7] = [
    Call::Run,
    Call::RunStation(0),
    Call::RunStation(1),
    Call::Post { station: 1, time: 0, matter: Matter::Reading },
    Call::Post { station: 1, time: 30, matter: Matter::Reading },
    Call::Retract(0),
    Call::Commit(31),
];

/// What an accepted call answers.
#[derive(Clone, Debug)]
pub enum Answer<'o> {
    Run(RunLowest),
    RunStation(Run),
    Post(Posted),
    /// How many events are undone.
    Retract(u64),
    Commit(Log<'o>),
}

impl Call {
    /// Makes the call on an engine. The output is for a commit's log.
    pub fn make<'o>(self, engine: &mut Engine, output: &'o mut [u8]) -> Result<Answer<'o>, Refusal> {
        match self {
            Call::Run => engine.run_lowest().map(Answer::Run),
            Call::RunStation(station) => engine.run_station(station).map(Answer::RunStation),
            Call::Post { station, time, matter } => engine.post(station, time, matter).map(Answer::Post),
            Call::Retract(number) => engine.retract(number).map(Answer::Retract),
            Call::Commit(time) => engine.commit(time, output).map(Answer::Commit),
        }
    }
}

impl fmt::Display for Call {
    fn fmt(&self, f: &mut fmt::Formatter) -> fmt::Result {
        match *self {
            Call::Run => write!(f, "run"),
            Call::RunStation(station) => write!(f, "run {station}"),
            Call::Post { station, time, matter } => {
                let (kind, value) = matter.numbers();
                write!(f, "post {station} {time} {kind} {value}")
            }
            Call::Retract(number) => write!(f, "retract {number}"),
            Call::Commit(time) => write!(f, "commit {time}"),
        }
    }
}

/// The stations of the plan that the lists are for: the collector and one logger.
pub fn stations() -> [Station; 2] {
    [Station::new(Config { parent: 0, calm: 1_000, spring: 200, threshold: 5_000, hop: 30, noise: 0, seed: 1 }, b""); 2]
}

/// Writes the lists, four bytes each: the length, then the calls by their numbers, 7 for each unused place. What follows them in the output is left as it was.
/// Refusal: 18, for an output of under 1600 bytes.
pub fn write(output: &mut [u8]) -> Result<(), Refusal> {
    calls::write_lists(output)
}

/// A list of calls.
#[derive(Clone, Copy, PartialEq, Eq, Debug)]
pub struct List([u8; 4]);

impl List {
    /// Its four bytes.
    pub fn bytes(&self) -> [u8; 4] {
        self.0
    }

    /// Its calls, in their order. An unused place has none.
    pub fn calls(&self) -> impl Iterator<Item = Call> + '_ {
        self.0[1..].iter().map_while(|number| CALLS.get(usize::from(*number)).copied())
    }
}

/// The lists, in their order.
#[derive(Clone, Debug)]
pub struct Lists {
    bytes: [u8; BYTES],
    next: usize,
}

/// All lists, the shorter ones first, those of one length by their first differing call.
///
/// ```no_run
/// use jambfennel::{small_lists, Engine, Plan};
/// # fn main() -> Result<(), jambfennel::Refusal> {
/// let mut bytes = [0; Plan::bytes_for(2)];
/// let plan = Plan::write(&small_lists::stations(), &mut bytes)?;
/// for list in small_lists::lists() {
///     let mut buffer = [0; Engine::bytes(16, 2, 64)];
///     let mut engine = Engine::open(&plan, 16, 64, 64, &mut buffer)?;
///     for call in list.calls() {
///         let mut output = [0; 64 * 24];
///         println!("{call}: {:?}", call.make(&mut engine, &mut output));
///     }
/// }
/// # Ok(())
/// # }
/// ```
pub fn lists() -> Lists {
    let mut bytes = [0; BYTES];
    let next = write(&mut bytes).map_or(COUNT, |()| 0);
    Lists { bytes, next }
}

impl Iterator for Lists {
    type Item = List;

    fn next(&mut self) -> Option<List> {
        let bytes = self.bytes[4 * self.next..].first_chunk()?;
        self.next += 1;
        Some(List(*bytes))
    }

    fn size_hint(&self) -> (usize, Option<usize>) {
        (COUNT - self.next, Some(COUNT - self.next))
    }
}

impl ExactSizeIterator for Lists {}
impl std::iter::FusedIterator for Lists {}
