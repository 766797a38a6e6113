// The calendar, the engine, the plain machine and the account, straight from documents 01 and 02 and as simple as can be: a sorted set of times, a sorted map of held
// events, a heap of waiting ones, a list of charges.
#![allow(dead_code)]
use std::cmp::Reverse;
use std::collections::{BTreeMap, BTreeSet, BinaryHeap};

pub const H: u64 = 1_099_511_627_775;
const LARGEST: u64 = 4_294_967_295;
const POSTED: u64 = 65_535;

#[derive(Clone, Copy, Debug)]
pub struct Config {
    pub parent: u16,
    pub calm: u32,
    pub spring: u32,
    pub threshold: u32,
    pub hop: u32,
    pub noise: u32,
    pub seed: u32,
}

#[derive(Clone, Copy, PartialEq, Eq, Debug)]
pub struct State {
    pub draw: u64,
    pub level: u64,
    pub heard: u64,
    pub lost: u64,
    pub sent: u64,
    /// The time of the last frame heard.
    pub last: Option<u64>,
}

/// Time, target, source, number: the event order.
pub type Key = (u64, u64, u64, u64);
/// Kind and value.
pub type Matter = (u64, u64);

/// A small generator of numbers for the tests.
pub struct Dice(pub u64);

impl Dice {
    pub fn below(&mut self, n: u64) -> u64 {
        self.0 ^= self.0 << 13;
        self.0 ^= self.0 >> 7;
        self.0 ^= self.0 << 17;
        self.0 % n
    }

    pub fn one_in(&mut self, n: u64) -> bool {
        self.below(n) == 0
    }

    pub fn pick<T: Copy>(&mut self, from: &[T]) -> T {
        from[self.below(from.len() as u64) as usize]
    }
}

pub fn plan_bytes(line: &[Config]) -> Vec<u8> {
    let n = line.len();
    let mut bytes = (n as u16).to_le_bytes().to_vec();
    for s in 0..n {
        bytes.extend(((2 + 8 * n + 26 * s) as u32).to_le_bytes());
        bytes.extend(26u32.to_le_bytes());
    }
    for c in line {
        bytes.extend(c.parent.to_le_bytes());
        for number in [c.calm, c.spring, c.threshold, c.hop, c.noise, c.seed] {
            bytes.extend(number.to_le_bytes());
        }
    }
    bytes
}

/// A refusal's number, and its station.
pub type Wrong = (u64, Option<u64>);

fn number_wrong(s: usize, c: &Config) -> bool {
    let parent_wrong = if s == 0 { c.parent != 0 } else { c.parent as usize >= s };
    parent_wrong || c.calm < 1 || c.spring < 1 || c.hop < 1 || c.noise > 2_147_483_646 || c.seed < 1 || c.seed > 2_147_483_646
}

fn name_wrong(name: &[u8]) -> bool {
    name.len() > 16 || name.iter().any(|byte| !(0x21..=0x7E).contains(byte))
}

/// 4 and 5, with the lowest station.
fn stations_wrong(stations: &[(Config, Vec<u8>)]) -> Option<Wrong> {
    let number = stations.iter().enumerate().position(|(s, (c, _))| number_wrong(s, c)).map(|s| (4, Some(s as u64)));
    number.or(stations.iter().position(|(_, name)| name_wrong(name)).map(|s| (5, Some(s as u64))))
}

/// A plan's stations with their names.
pub fn read_plan(bytes: &[u8]) -> Result<Vec<(Config, Vec<u8>)>, Wrong> {
    let half = |at: usize| u16::from_le_bytes(bytes[at..at + 2].try_into().unwrap());
    let word = |at: usize| u32::from_le_bytes(bytes[at..at + 4].try_into().unwrap());
    if bytes.len() < 2 {
        return Err((1, None));
    }
    let n = half(0) as usize;
    if !(1..=256).contains(&n) || bytes.len() < 2 + 8 * n {
        return Err((1, None));
    }
    let mut begin = 2 + 8 * n;
    let mut records = vec![];
    for s in 0..n {
        let (offset, len) = (word(2 + 8 * s) as usize, word(6 + 8 * s) as usize);
        if offset != begin || !(26..=42).contains(&len) || offset + len > bytes.len() {
            return Err((2, Some(s as u64)));
        }
        records.push((offset, len));
        begin += len;
    }
    if begin < bytes.len() {
        return Err((3, None));
    }
    let stations: Vec<_> = records
        .into_iter()
        .map(|(at, len)| {
            let [calm, spring, threshold, hop, noise, seed] = [2, 6, 10, 14, 18, 22].map(|k| word(at + k));
            (Config { parent: half(at), calm, spring, threshold, hop, noise, seed }, bytes[at + 26..at + len].to_vec())
        })
        .collect();
    match stations_wrong(&stations) {
        Some(wrong) => Err(wrong),
        None => Ok(stations),
    }
}

/// The plan of these stations, for an output of so many bytes.
pub fn write_plan(stations: &[(Config, Vec<u8>)], room: usize) -> Result<Vec<u8>, Wrong> {
    if stations.is_empty() || stations.len() > 256 {
        return Err((1, None));
    }
    if let Some(wrong) = stations_wrong(stations) {
        return Err(wrong);
    }
    let mut bytes = (stations.len() as u16).to_le_bytes().to_vec();
    let mut begin = 2 + 8 * stations.len();
    for (_, name) in stations {
        bytes.extend((begin as u32).to_le_bytes());
        bytes.extend((26 + name.len() as u32).to_le_bytes());
        begin += 26 + name.len();
    }
    for (c, name) in stations {
        bytes.extend(c.parent.to_le_bytes());
        [c.calm, c.spring, c.threshold, c.hop, c.noise, c.seed].iter().for_each(|number| bytes.extend(number.to_le_bytes()));
        bytes.extend(name);
    }
    if room < bytes.len() {
        return Err((18, None));
    }
    Ok(bytes)
}

pub fn first_state(c: &Config) -> State {
    State { draw: c.seed.into(), level: 0, heard: 0, lost: 0, sent: 0, last: None }
}

/// What running an event does: the state after it, and its sends in order.
#[inline]
pub fn run_event(c: &Config, state: State, key: Key, matter: Matter) -> (State, [Option<(Key, Matter)>; 2]) {
    let (time, station, ..) = key;
    let mut after = state;
    let mut sends = [None; 2];
    let mut count = 0;
    let mut send = |after: &mut State, at: u64, to: u64, what: Matter| {
        if at <= H {
            sends[count] = Some(((at, to, station, after.sent), what));
            count += 1;
            after.sent += 1;
        }
    };
    match matter.0 {
        1 if station > 0 => {
            let period = if after.level >= c.threshold.into() { c.spring } else { c.calm };
            send(&mut after, time + period as u64, station, (1, 0));
            send(&mut after, time + c.hop as u64, c.parent.into(), (2, station));
        }
        2 => {
            after.draw = 16_807 * after.draw % 2_147_483_647;
            if after.draw <= c.noise.into() {
                after.lost += 1;
                if matter.1 / 256 < 3 {
                    send(&mut after, time + c.hop as u64, station, (2, matter.1 + 256));
                }
            } else {
                after.heard += 1;
                after.last = Some(time);
                if station > 0 {
                    send(&mut after, time + c.hop as u64, c.parent.into(), (2, matter.1 % 256));
                }
            }
        }
        3 => after.level = matter.1,
        _ => {}
    }
    (after, sends)
}

/// The plain machine on a heap.
pub struct Machine<'p> {
    pub line: &'p [Config],
    pub states: Vec<State>,
    pub waiting: BinaryHeap<Reverse<(Key, Matter)>>,
}

impl<'p> Machine<'p> {
    pub fn new(line: &'p [Config]) -> Machine<'p> {
        Machine { line, states: line.iter().map(first_state).collect(), waiting: BinaryHeap::new() }
    }

    pub fn post(&mut self, key: Key, matter: Matter) {
        self.waiting.push(Reverse((key, matter)));
    }

    /// Steps while an event before the time waits.
    pub fn run(&mut self, until: u64, mut log: impl FnMut(Key, Matter)) {
        while let Some(&Reverse((key, matter))) = self.waiting.peek() {
            if key.0 >= until {
                break;
            }
            self.waiting.pop();
            let s = key.1 as usize;
            let (after, sends) = run_event(&self.line[s], self.states[s], key, matter);
            self.states[s] = after;
            for send in sends.into_iter().flatten() {
                self.waiting.push(Reverse(send));
            }
            log(key, matter);
        }
    }
}

/// What 10 does not refuse on a line of n stations.
pub fn suits(n: u64, (kind, value): Matter) -> bool {
    match kind {
        1 => value == 0,
        2 => value % 256 < n && value / 256 <= 3,
        3 => value <= LARGEST,
        _ => false,
    }
}

/// What the openings refuse after the plan: 26, 6, 7. Of the stations only a calendar's can be out of range, of the places only an engine's.
fn opening(arity: u64, width: u64, room: bool, needed: impl Fn(u64) -> u64, bytes: u64) -> Result<(), u64> {
    if ![8, 16, 32, 64].contains(&arity) {
        return Err(26);
    }
    if !(1..=1_048_576).contains(&width) {
        return Err(6);
    }
    if !room || bytes < needed(128 * arity * arity) {
        return Err(7);
    }
    Ok(())
}

/// What the opening of a calendar on so many bytes answers.
pub fn open_calendar(n: u64, arity: u64, width: u64, bytes: u64) -> Result<(), u64> {
    opening(arity, width, (1..=256).contains(&n), |blocks| blocks + 64 * n, bytes)
}

/// What the opening of an engine on so many bytes answers.
pub fn open_engine(plan: &[u8], arity: u64, width: u64, capacity: u64, bytes: u64) -> Result<(), Wrong> {
    let n = read_plan(plan)?.len() as u64;
    opening(arity, width, (2..=4096).contains(&capacity), |blocks| blocks + 256 * n + 256 * capacity, bytes).map_err(|number| (number, None))
}

/// How many bitmap words lowest reads: roots from the floor's block on to the first that is not zero, and a node; 16 roots where all are zero. A block is arity
/// squared leaves.
pub fn words_read(arity: u64, width: u64, floor: u64, times: impl Iterator<Item = u64> + Clone) -> u64 {
    let block = |time| time / (width * arity * arity);
    let mut read = 0;
    for root in block(floor)..block(floor) + 16 {
        read += 1;
        if times.clone().any(|time| block(time) == root) {
            return read + 1;
        }
    }
    read
}

/// Time, station and bitmap words read, or the refusal's number.
pub type Lowest = Result<(u64, u64, u64), u64>;

/// The calendar, on a set of times with their stations.
pub struct Calendar {
    pub n: u64,
    pub arity: u64,
    pub width: u64,
    pub floor: u64,
    pub set: BTreeSet<(u64, u64)>,
    times: Vec<Option<u64>>,
}

impl Calendar {
    pub fn open(n: u64, arity: u64, width: u64) -> Calendar {
        Calendar { n, arity, width, floor: 0, set: BTreeSet::new(), times: vec![None; n as usize] }
    }

    pub fn register(&mut self, station: u64, time: u64) -> Result<(), u64> {
        if station >= self.n {
            return Err(9);
        }
        if time > H {
            return Err(11);
        }
        if time < self.floor {
            return Err(12);
        }
        self.unregister(station)?;
        self.times[station as usize] = Some(time);
        self.set.insert((time, station));
        Ok(())
    }

    pub fn unregister(&mut self, station: u64) -> Result<(), u64> {
        if station >= self.n {
            return Err(9);
        }
        if let Some(time) = self.times[station as usize].take() {
            self.set.remove(&(time, station));
        }
        Ok(())
    }

    pub fn lowest(&self) -> Lowest {
        let (time, station) = *self.set.first().ok_or(14u64)?;
        Ok((time, station, words_read(self.arity, self.width, self.floor, self.times.iter().copied().flatten())))
    }

    pub fn extract(&mut self) -> Lowest {
        let found = self.lowest()?;
        self.unregister(found.1)?;
        Ok(found)
    }

    pub fn advance(&mut self, floor: u64) -> Result<(), u64> {
        if floor > H + 1 {
            return Err(11);
        }
        if floor < self.floor {
            return Err(12);
        }
        if self.set.first().is_some_and(|x| x.0 < floor) {
            return Err(15);
        }
        self.floor = floor;
        Ok(())
    }
}

struct Held {
    matter: Matter,
    run: Option<(State, Vec<Key>)>,
}

/// The engine by the rules of undo, remove and add.
pub struct Engine {
    pub line: Vec<Config>,
    pub arity: u64,
    pub width: u64,
    pub capacity: u64,
    pub next: u64,
    pub now: u64,
    pub states: Vec<State>,
    held: BTreeMap<Key, Held>,
}

pub fn entry(key: Key, matter: Matter) -> [u8; 24] {
    let mut bytes = [0; 24];
    bytes[..8].copy_from_slice(&key.0.to_le_bytes());
    bytes[8..12].copy_from_slice(&(key.3 as u32).to_le_bytes());
    bytes[12..16].copy_from_slice(&(matter.1 as u32).to_le_bytes());
    bytes[16..18].copy_from_slice(&(key.1 as u16).to_le_bytes());
    bytes[18..20].copy_from_slice(&(key.2 as u16).to_le_bytes());
    bytes[20..].copy_from_slice(&(matter.0 as u32).to_le_bytes());
    bytes
}

impl Engine {
    pub fn open(line: &[Config], arity: u64, width: u64, capacity: u64) -> Engine {
        Engine { line: line.to_vec(), arity, width, capacity, next: 0, now: 0, states: line.iter().map(first_state).collect(), held: BTreeMap::new() }
    }

    fn n(&self) -> u64 {
        self.line.len() as u64
    }

    fn free(&self) -> u64 {
        self.capacity - self.held.len() as u64
    }

    fn run_keys(&self) -> BTreeSet<Key> {
        self.held.iter().filter(|(_, h)| h.run.is_some()).map(|(k, _)| *k).collect()
    }

    fn undone(&self, before: &BTreeSet<Key>) -> u64 {
        before.difference(&self.run_keys()).count() as u64
    }

    fn undo(&mut self, key: Key) {
        let (state, sends) = self.held.get_mut(&key).unwrap().run.take().unwrap();
        self.states[key.1 as usize] = state;
        for send in sends {
            self.remove(send);
        }
    }

    fn undo_later(&mut self, key: Key) {
        while let Some(later) = self.held.range(key..).rev().find(|(k, h)| **k != key && k.1 == key.1 && h.run.is_some()).map(|(k, _)| *k) {
            self.undo(later);
        }
    }

    fn remove(&mut self, key: Key) {
        if self.held[&key].run.is_some() {
            self.undo_later(key);
            self.undo(key);
        }
        self.held.remove(&key);
    }

    fn add(&mut self, key: Key, matter: Matter) {
        self.undo_later(key);
        self.held.insert(key, Held { matter, run: None });
    }

    pub fn post(&mut self, station: u64, time: u64, kind: u64, value: u64) -> Result<(u64, u64), u64> {
        if station >= self.n() {
            return Err(9);
        }
        if !suits(self.n(), (kind, value)) {
            return Err(10);
        }
        if time > H {
            return Err(11);
        }
        if time < self.now {
            return Err(12);
        }
        if self.next > LARGEST {
            return Err(16);
        }
        if self.free() < 1 {
            return Err(17);
        }
        let before = self.run_keys();
        self.add((time, station, POSTED, self.next), (kind, value));
        self.next += 1;
        Ok((self.next - 1, self.undone(&before)))
    }

    pub fn retract(&mut self, number: u64) -> Result<u64, u64> {
        let key = *self.held.keys().find(|k| k.2 == POSTED && k.3 == number).ok_or(13u64)?;
        let before = self.run_keys();
        self.remove(key);
        Ok(self.undone(&before))
    }

    pub fn run(&mut self, station: u64) -> Result<(u64, u64), u64> {
        if station >= self.n() {
            return Err(9);
        }
        let s = station as usize;
        let (key, matter) = self.held.iter().find(|(k, h)| k.1 == station && h.run.is_none()).map(|(k, h)| (*k, h.matter)).ok_or(14u64)?;
        let (after, sends) = run_event(&self.line[s], self.states[s], key, matter);
        if after.heard.max(after.lost).max(after.sent) > LARGEST {
            return Err(16);
        }
        let sends: Vec<_> = sends.into_iter().flatten().collect();
        if self.free() < sends.len() as u64 {
            return Err(17);
        }
        let before = self.run_keys();
        self.held.get_mut(&key).unwrap().run = Some((self.states[s], sends.iter().map(|(k, _)| *k).collect()));
        self.states[s] = after;
        for (k, m) in sends {
            self.add(k, m);
        }
        Ok((station, self.undone(&before)))
    }

    /// The lowest unrun time of each station that has one.
    fn registered(&self) -> BTreeMap<u64, u64> {
        let mut times = BTreeMap::new();
        for (key, _) in self.held.iter().filter(|(_, h)| h.run.is_none()) {
            let time = times.entry(key.1).or_insert(key.0);
            *time = key.0.min(*time);
        }
        times
    }

    /// The station, undone, and the bitmap words read: of the stations of the lowest time the lowest-numbered one is run.
    pub fn run_lowest(&mut self) -> Result<(u64, u64, u64), u64> {
        let times = self.registered();
        let (_, station) = times.iter().map(|(s, t)| (*t, *s)).min().ok_or(14u64)?;
        let words = words_read(self.arity, self.width, self.now, times.values().copied());
        self.run(station).map(|(station, undone)| (station, undone, words))
    }

    pub fn commit(&mut self, time: u64, room: usize) -> Result<Vec<(Key, Matter)>, u64> {
        if time > H + 1 {
            return Err(11);
        }
        if time < self.now {
            return Err(12);
        }
        if self.held.iter().any(|(k, h)| k.0 < time && h.run.is_none()) {
            return Err(15);
        }
        let log: Vec<_> = self.held.iter().filter(|(k, _)| k.0 < time).map(|(k, h)| (*k, h.matter)).collect();
        if room < 24 * log.len() {
            return Err(18);
        }
        for (key, _) in &log {
            self.held.remove(key);
        }
        self.now = time;
        Ok(log)
    }

    pub fn record(&self, station: u64) -> Result<State, u64> {
        if station >= self.n() {
            return Err(9);
        }
        let first = self.held.iter().find(|(k, h)| k.1 == station && h.run.is_some());
        Ok(first.map_or(self.states[station as usize], |(_, h)| h.run.as_ref().unwrap().0))
    }
}

/// The account in a buffer of so many bytes. Its charges have room for any sum.
#[derive(Clone, PartialEq, Eq, Debug, Default)]
pub struct Account {
    pub room: usize,
    pub n: u64,
    pub reading: u32,
    pub frame: u32,
    pub charges: Vec<u128>,
}

impl Account {
    /// None yet, in so many bytes.
    pub fn within(room: usize) -> Account {
        Account { room, ..Default::default() }
    }

    /// What bytes stand for, with so many stations: 4 for what a reading costs, 4 for a frame, 8 for each charge.
    pub fn of(n: u64, bytes: &[u8]) -> Account {
        let number = |at: usize, len: usize| bytes.get(at..at + len).map(|some| some.iter().rev().fold(0, |number, byte| 256 * number + u128::from(*byte)));
        Account {
            room: bytes.len(),
            n,
            reading: number(0, 4).unwrap_or(0) as u32,
            frame: number(4, 4).unwrap_or(0) as u32,
            charges: (0..n.min(256) as usize).map_while(|s| number(8 + 8 * s, 8)).collect(),
        }
    }

    /// The bytes that stand for it.
    pub fn bytes(&self) -> Vec<u8> {
        let mut bytes = [self.reading.to_le_bytes(), self.frame.to_le_bytes()].concat();
        self.charges.iter().for_each(|charge| bytes.extend((*charge as u64).to_le_bytes()));
        bytes
    }

    /// 7, which comes first in every call.
    fn fits(&self, n: u64) -> Result<(), u64> {
        if !(1..=256).contains(&n) || self.room < 8 + 8 * n as usize {
            return Err(7);
        }
        Ok(())
    }

    pub fn open(&mut self, n: u64, reading: u32, frame: u32) -> Result<(), u64> {
        self.fits(n)?;
        *self = Account { room: self.room, n, reading, frame, charges: vec![0; n as usize] };
        Ok(())
    }

    pub fn read(&mut self, n: u64, part: &[u8]) -> Result<(), u64> {
        self.fits(n)?;
        let entries = part.chunks_exact(24);
        if !entries.remainder().is_empty() {
            return Err(19);
        }
        let mut charges = self.charges.clone();
        for entry in entries {
            let number = |at: usize, len: usize| entry[at..at + len].iter().rev().fold(0, |number, byte| 256 * number + u64::from(*byte));
            let (time, value, target, source, kind) = (number(0, 8), number(12, 4), number(16, 2), number(18, 2), number(20, 4));
            if time > H || target >= n || (source >= n && source != POSTED) || !suits(n, (kind, value)) {
                return Err(19);
            }
            charges[target as usize] += match kind {
                1 => u128::from(self.reading),
                2 => u128::from(self.frame),
                _ => 0,
            };
        }
        if charges.iter().any(|charge| *charge > u64::MAX.into()) {
            return Err(20);
        }
        self.charges = charges;
        Ok(())
    }

    pub fn charge(&self, n: u64, station: u64) -> Result<u64, u64> {
        self.fits(n)?;
        if station >= n {
            return Err(9);
        }
        Ok(self.charges[station as usize] as u64)
    }
}
