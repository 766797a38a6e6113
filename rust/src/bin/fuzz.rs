//! Plans, the engine, the calendar and the account against simple ones written from the paper alone, call by call; then every call of the engine on damaged buffers.
//!
//!     make fuzz [CASES=2000] [SEED=1]
//!     make calendars [LISTS=400] [SEED=1]
//!     make accounts [LISTS=400] [SEED=1]
//!
//! A case of plans is a drawn list of stations, written, and the plan damaged, read. A case of the engine is a drawn line, arity and width, openings with numbers in and
//! out of range, and a drawn list of calls. Answers, logs and records are compared, and at the end the joined logs and the records with the plain machine; an
//! account takes every log. A case of the account is a drawn list of parts, good and damaged, and of questions, on drawn bytes too; all its bytes are compared. A
//! difference prints the case's seed. `fuzz stack=64` runs the deepest rollback in a stack of so many KiB. `fuzz calendars` and `fuzz accounts` read lines of calls with
//! their answers, as tools/calendar.py and tools/account.py write them, and make the calls.
use jambfennel::{Account, Calendar, Engine, Entry, Plan, Refusal, State, Station, ARITIES};
use std::io::BufRead;

#[path = "../../reference/mod.rs"]
mod reference;
use reference::{Config, Dice};

fn line(dice: &mut Dice) -> Vec<Config> {
    let most = dice.pick(&[2, 4, 8, 32, 256]);
    let n = 1 + dice.below(most);
    let depth = dice.pick(&[1, 2, 4, 1000]);
    let noise = dice.pick(&[0, 100_000_000, 1_000_000_000, 2_147_483_646]);
    (0..n)
        .map(|s| Config {
            parent: s.saturating_sub(1 + dice.below(depth)) as u16,
            calm: 1 + dice.below(80) as u32,
            spring: 1 + dice.below(20) as u32,
            threshold: dice.below(10) as u32,
            hop: 1 + dice.below(30) as u32,
            noise,
            seed: 1 + dice.below(2_147_483_646) as u32,
        })
        .collect()
}

fn number<T>(r: Result<T, Refusal>) -> Result<T, u64> {
    r.map_err(|refusal| refusal.number)
}

fn state(s: State) -> reference::State {
    reference::State { draw: s.draw.into(), level: s.level.into(), heard: s.heard.into(), lost: s.lost.into(), sent: s.sent.into(), last: s.last }
}

// One list of calls. The buffer stands between guard bytes.
fn compare(seed: u64) -> u64 {
    let mut dice = Dice(seed.wrapping_mul(0x9E37_79B9_7F4A_7C15) | 1);
    let line = line(&mut dice);
    let n = line.len() as u64;
    let capacity = dice.pick(&[2, 3, 16, 64, 300]);
    let arity = dice.pick(&ARITIES);
    let width = dice.pick(&[1, 3, 64, 1000, 1_048_576]);
    let size = Engine::bytes(arity, line.len(), capacity as usize) + dice.below(3) as usize * 100;
    let mut all = vec![0xA5u8; size + 64];
    all.iter_mut().for_each(|b| *b = dice.below(256) as u8);
    let guards = (all[..32].to_vec(), all[size + 32..].to_vec());
    let buffer = &mut all[32..size + 32];
    let plan = reference::plan_bytes(&line);
    let mut engine = Engine::open(&plan, arity, width, capacity, buffer).unwrap_or_else(|e| panic!("case {seed}: {e}"));
    let mut model = reference::Engine::open(&line, arity, width, capacity);
    let (mut posts, mut gone, mut logs) = (vec![], vec![], vec![]);
    let (reading, frame) = (u32::MAX, 65_537);
    let mut lent = vec![0xA5u8; Account::bytes(line.len())];
    let mut account = Account::open(n, reading, frame, &mut lent).unwrap_or_else(|e| panic!("case {seed}: {e}"));
    let start = dice.pick(&[0, 0, 0, reference::H - 400]);
    // in one block or the next; or past the ring's 16, so that every count of bitmap words read is met
    let spread = if start == 0 && dice.one_in(2) { 20 * arity * arity * width } else { 100 };
    let mut calls = 0;
    for _ in 0..60 + dice.below(300) {
        calls += 1;
        let station = dice.below(n + n / 8 + 1);
        let time = model.now.max(start) + dice.below(spread);
        match dice.below(100) {
            0..=17 => {
                let kind = dice.pick(&[1, 2, 2, 3, 3, 0, 4]);
                let value = match kind {
                    1 => u64::from(dice.one_in(9)),
                    2 if dice.one_in(20) => dice.pick(&[1 << 16, (1 << 32) + 1, u64::MAX - 255, u64::MAX]),
                    2 => dice.below(n + 1) + 256 * dice.pick(&[0, 0, 0, 1, 2, 3, 4, 5]),
                    _ => dice.below(12),
                };
                let time = if dice.one_in(12) { dice.pick(&[0, reference::H, reference::H + 1, u64::MAX]) } else { time };
                let a = number(engine.post_numbers(station, time, kind, value)).map(|p| (p.number, p.undone));
                assert_eq!(a, model.post(station, time, kind, value), "case {seed}, call {calls}: post {station} {time} {kind} {value}");
                if let Ok((number, _)) = a {
                    posts.push(((time, station, 65_535, number), (kind, value)));
                }
            }
            18..=25 => {
                let k = dice.below(model.next + 2);
                let a = number(engine.retract(k));
                assert_eq!(a, model.retract(k), "case {seed}, call {calls}: retract {k}");
                if a.is_ok() {
                    gone.push(k);
                }
            }
            26..=50 => {
                let a = number(engine.run_station(station)).map(|r| (r.station, r.undone));
                assert_eq!(a, model.run(station), "case {seed}, call {calls}: run {station}");
            }
            51..=78 => {
                let a = number(engine.run_lowest()).map(|r| (r.station, r.undone, r.words));
                assert_eq!(a, model.run_lowest(), "case {seed}, call {calls}: run lowest");
            }
            79..=92 => {
                let time = if dice.one_in(3) { time } else { model.now + dice.below(20) };
                let mut output = vec![0x5Au8; dice.pick(&[0, 24, 240, 24 * 300])];
                let before = output.clone();
                let want = model.commit(time, output.len());
                match number(engine.commit(time, &mut output).map(|log| log.bytes().len())) {
                    Ok(len) => {
                        let log = want.unwrap_or_else(|e| panic!("case {seed}, call {calls}: commit {time} accepted for {e}"));
                        let bytes: Vec<u8> = log.iter().flat_map(|(k, m)| reference::entry(*k, *m)).collect();
                        assert!(bytes == output[..len] && output[len..] == before[len..], "case {seed}, call {calls}: log of commit {time}");
                        account.read(&output[..len]).unwrap_or_else(|e| panic!("case {seed}, call {calls}: log of commit {time}: {e}"));
                        logs.extend(bytes);
                    }
                    Err(e) => {
                        assert_eq!(want.map(|_| ()), Err(e), "case {seed}, call {calls}: commit {time}");
                        assert!(output == before, "case {seed}, call {calls}: a refused commit wrote");
                    }
                }
            }
            _ => {
                let a = number(engine.record(station)).map(state);
                assert_eq!(a, model.record(station), "case {seed}, call {calls}: record {station}");
            }
        }
    }
    // demand 3
    let mut machine = reference::Machine::new(&line);
    posts.iter().filter(|(k, _)| !gone.contains(&k.3)).for_each(|(k, m)| machine.post(*k, *m));
    let mut log = vec![];
    machine.run(model.now, |k, m| log.extend(reference::entry(k, m)));
    assert!(log == logs, "case {seed}: the joined logs are not the machine's");
    let suits = |entry: Entry| entry.matter().is_some() && reference::suits(n, (entry.kind.into(), entry.value.into()));
    assert!(logs.chunks_exact(24).all(|bytes| suits(Entry::of(bytes.try_into().unwrap()))), "case {seed}: a matter that 10 refuses is in the log");
    for s in 0..n {
        assert_eq!(state(engine.record(s).unwrap()), machine.states[s as usize], "case {seed}: record {s}");
    }
    // the account of the parts has what the joined log costs
    let mut whole = reference::Account::within(Account::bytes(line.len()));
    assert_eq!(whole.open(n, reading, frame).and_then(|_| whole.read(n, &logs)), Ok(()), "case {seed}: the joined logs in the simple account");
    assert!(account.charges().map(u128::from).eq(whole.charges), "case {seed}: charges");
    assert_eq!(account.total(), cost(reading, frame, &logs), "case {seed}: the sum of the charges");
    assert!(guards == (all[..32].to_vec(), all[size + 32..].to_vec()), "case {seed}: a byte outside the buffer");
    calls
}

// What the readings and the frames of a log cost.
fn cost(reading: u32, frame: u32, log: &[u8]) -> u128 {
    let of_kind = |kind| log.chunks_exact(24).filter(|bytes| Entry::of((*bytes).try_into().unwrap()).kind == kind).count() as u128;
    u128::from(reading) * of_kind(1) + u128::from(frame) * of_kind(2)
}

// Openings of the engine and the calendar with numbers in and out of range. A refused one leaves the buffer as it was.
fn openings(seed: u64) -> u64 {
    let mut dice = Dice(seed.wrapping_mul(0xA24B_AED4_963E_E407) | 1);
    let line = line(&mut dice);
    let mut plan = reference::plan_bytes(&line);
    if dice.one_in(4) {
        plan.truncate(dice.below(plan.len() as u64) as usize);
    }
    let arity = match dice.below(4) {
        0 => dice.pick(&[0, 1, 4, 7, 9, 12, 24, 128, 65_552, (1 << 32) + 16, u64::MAX]),
        _ => dice.pick(&ARITIES),
    };
    let width = dice.pick(&[0, 1, 64, 1_048_576, 1_048_577, u64::MAX]);
    let capacity = dice.pick(&[0, 1, 2, 64, 4096, 4097, u64::MAX]);
    let n = dice.pick(&[0, 1, line.len() as u64, 256, 257, u64::MAX]);
    let filler = dice.below(256) as u8;
    // one byte too few, or just enough where the numbers are in range
    let enough = Engine::bytes(arity, line.len(), capacity.min(4096) as usize);
    let mut buffer = vec![filler; enough - usize::from(dice.one_in(3))];
    let said = wrong(Engine::open(&plan, arity, width, capacity, &mut buffer).map(|_| ()));
    let expected = reference::open_engine(&plan, arity, width, capacity, buffer.len() as u64);
    assert_eq!(said, expected, "case {seed}: an engine's opening, arity {arity}, width {width}, capacity {capacity}, {} bytes", buffer.len());
    assert!(said.is_ok() || buffer.iter().all(|byte| *byte == filler), "case {seed}: a refused opening changed the buffer");
    let enough = Calendar::bytes(arity, n.min(256) as usize);
    let mut buffer = vec![filler; enough.saturating_sub(usize::from(dice.one_in(3)))];
    let said = number(Calendar::open(n, arity, width, &mut buffer).map(|_| ()));
    let expected = reference::open_calendar(n, arity, width, buffer.len() as u64);
    assert_eq!(said, expected, "case {seed}: a calendar's opening, {n} stations, arity {arity}, width {width}, {} bytes", buffer.len());
    assert!(said.is_ok() || buffer.iter().all(|byte| *byte == filler), "case {seed}: a refused opening changed the buffer");
    2
}

// A reading, a frame of station 0 with some repeats made, or a level.
fn posted(dice: &mut Dice) -> (u64, u64) {
    match 1 + dice.below(3) {
        2 => (2, 256 * dice.below(4)),
        kind => (kind, 0),
    }
}

// Every call on a buffer with bytes that no engine has left: it ends, stays inside, and a refusal changes nothing.
fn damage(seed: u64) -> u64 {
    let mut dice = Dice(seed.wrapping_mul(0xD134_2543_DE82_EF95) | 1);
    let line = line(&mut dice);
    let capacity = dice.pick(&[2, 16, 64]);
    let arity = dice.pick(&ARITIES);
    let size = Engine::bytes(arity, line.len(), capacity);
    // the calendar lies after the links, and its eighth word names the shape
    let calendar = 32 + 72 + 144 * line.len() + 72 * capacity;
    let shape = calendar + 56;
    let mut all = vec![0u8; size + 64];
    let plan = reference::plan_bytes(&line);
    {
        let mut engine = Engine::open(&plan, arity, 64, capacity as u64, &mut all[32..size + 32]).unwrap();
        for _ in 0..40 {
            let (kind, value) = posted(&mut dice);
            let _ = engine.post_numbers(dice.below(line.len() as u64), dice.below(200), kind, value);
            let _ = engine.run_lowest();
            let _ = engine.run_station(dice.below(line.len() as u64));
        }
    }
    match dice.below(5) {
        0 => all[32..size + 32].iter_mut().for_each(|b| *b = dice.below(256) as u8),
        1 => {
            // garbage after a sound header
            let from = 32 + 64 + dice.below(size as u64 - 64) as usize;
            all[from..size + 32].iter_mut().for_each(|b| *b = dice.below(256) as u8);
        }
        2 => {
            // small numbers in the links and slots, so that they lead somewhere
            all[32 + 64..calendar].iter_mut().for_each(|b| *b = if dice.one_in(2) { 0 } else { dice.below(8) as u8 });
        }
        3 => {
            // another shape, or none
            let row = dice.pick(&[0, 1, 2, 3, 4, 7, 8, 64, 255, 256, 1 << 32, 1 << 63, u64::MAX - 1, u64::MAX]);
            all[shape..shape + 8].copy_from_slice(&row.to_le_bytes());
        }
        _ => {
            for _ in 0..1 + dice.below(20) {
                let at = 32 + dice.below(size as u64) as usize;
                all[at] ^= 1 << dice.below(8);
            }
        }
    }
    let cut = if dice.one_in(8) { dice.below(size as u64) as usize } else { size };
    let mut calls = 0;
    for _ in 0..30 {
        calls += 1;
        let before = all.clone();
        let mut output = vec![0u8; dice.pick(&[0, 24, 24 * 64])];
        let kept = output.clone();
        let mut engine = Engine::resume(&mut all[32..cut + 32]);
        let number = dice.pick(&[0, 1, 2, 5, 100, 255, 256, 65_535, reference::H, u64::MAX]);
        let refused = match dice.below(6) {
            0 => {
                let (kind, value) = posted(&mut dice);
                engine.post_numbers(number, dice.below(300), kind, value).is_err()
            }
            1 => engine.retract(number).is_err(),
            2 => engine.run_station(number).is_err(),
            3 => engine.run_lowest().is_err(),
            4 => engine.commit(number, &mut output).is_err(),
            // a record changes nothing, whatever it answers
            _ => {
                let _ = engine.record(number);
                true
            }
        };
        if refused {
            assert!(before == all && output == kept, "case {seed}: a refused call on damaged bytes changed some");
        }
        assert!(before[..32] == all[..32] && before[cut + 32..] == all[cut + 32..], "case {seed}: a byte outside the buffer");
    }
    calls
}

// The deepest rollback that there is: a frame has gone through 255 hops, and a level before it takes all of them back. On a sound buffer, and on one whose stations'
// numbers were damaged so that every hop goes to the same place.
fn cascade() -> u64 {
    let line: Vec<Config> = (0..256u32)
        .map(|s| Config { parent: s.saturating_sub(1) as u16, calm: 1000, spring: 1000, threshold: 0, hop: 1, noise: 0, seed: 1 + s })
        .collect();
    let mut buffer = vec![0; Engine::bytes(16, 256, 4096)];
    let mut engine = Engine::open(&reference::plan_bytes(&line), 16, 64, 4096, &mut buffer).unwrap();
    engine.post_numbers(255, 100, 2, 255).unwrap();
    while engine.run_lowest().is_ok() {}
    let undone = engine.post_numbers(255, 50, 3, 7).unwrap().undone;
    assert_eq!(undone, 256, "the whole way is undone");
    // the same on slots that were damaged one by one
    while engine.run_lowest().is_ok() {}
    let sound = buffer.clone();
    let mut dice = Dice(5);
    for _ in 0..2_000 {
        buffer.copy_from_slice(&sound);
        for _ in 0..1 + dice.below(400) {
            let at = 64 + 128 * 256 + dice.below(64 * 300) as usize;
            buffer[at] = if dice.one_in(2) { dice.below(4) as u8 } else { dice.below(256) as u8 };
        }
        let mut engine = Engine::resume(&mut buffer);
        let _ = engine.post_numbers(255, 60, 3, 7);
        let _ = engine.retract(0);
        let _ = engine.retract(1);
    }
    undone
}

// Stations that are mostly right.
fn stations(dice: &mut Dice) -> Vec<(Config, Vec<u8>)> {
    let wrong = dice.pick(&[0, 0, 0, 1, 20]);
    let mut line = line(dice);
    if dice.one_in(20) {
        line.extend(line.clone().repeat(1 + 256 / line.len()));
    }
    line.into_iter()
        .map(|mut c| {
            let mut name: Vec<u8> = (0..dice.below(17)).map(|_| 0x21 + dice.below(94) as u8).collect();
            if dice.below(100) < wrong {
                match dice.below(5) {
                    0 => c.parent = dice.pick(&[0, 1, 5, 65_535]),
                    1 => c.seed = dice.pick(&[0, 2_147_483_647, u32::MAX]),
                    2 => c.hop = 0,
                    3 => name.push(dice.below(256) as u8),
                    _ => name.resize(16 + dice.below(3) as usize, b'x'),
                }
            }
            (c, name)
        })
        .collect()
}

fn record((c, name): &(Config, Vec<u8>)) -> Station {
    let Config { parent, calm, spring, threshold, hop, noise, seed } = *c;
    Station::new(jambfennel::Config { parent, calm, spring, threshold, hop, noise, seed }, name)
}

fn wrong<T>(r: Result<T, Refusal>) -> Result<T, reference::Wrong> {
    r.map_err(|refusal| (refusal.number, refusal.station))
}

// Stations written as a plan, and plans sound and damaged read.
fn plans(seed: u64) -> u64 {
    let mut dice = Dice(seed.wrapping_mul(0xD1B5_4A32_D192_ED03) | 1);
    let drawn = stations(&mut dice);
    let records: Vec<Station> = drawn.iter().map(record).collect();
    let whole = 2 + drawn.iter().map(|(_, name)| 34 + name.len()).sum::<usize>();
    let room = dice.pick(&[whole, whole + 30, whole.saturating_sub(1), 0]);
    let mut output: Vec<u8> = (0..room).map(|_| dice.below(256) as u8).collect();
    let before = output.clone();
    let expected = reference::write_plan(&drawn, room);
    let written = wrong(Plan::write(&records, &mut output).map(|plan| plan.bytes().to_vec()));
    assert_eq!(written, expected, "case {seed}: a plan is written otherwise");
    let end = expected.as_ref().map_or(0, |bytes| bytes.len());
    assert!(output[end..] == before[end..], "case {seed}: bytes after the plan");

    let mut bytes = reference::write_plan(&drawn, whole).unwrap_or_else(|_| reference::plan_bytes(&line(&mut dice)));
    match dice.below(5) {
        0 => {}
        1 => bytes.truncate(dice.below(bytes.len() as u64 + 1) as usize),
        2 => bytes.push(dice.below(256) as u8),
        3 => {
            // a number of a pair or a record, or a byte of a name
            let at = dice.below(bytes.len() as u64) as usize;
            bytes[at] = bytes[at].wrapping_add(dice.pick(&[1, 255, 16]));
        }
        _ => {
            for _ in 0..1 + dice.below(4) {
                let at = dice.below(bytes.len() as u64) as usize;
                bytes[at] ^= 1 << dice.below(8);
            }
        }
    }
    let expected = reference::read_plan(&bytes);
    let read = wrong(Plan::read(&bytes));
    assert_eq!(read.map(|plan| plan.count()), expected.as_ref().map(|stations| stations.len()).map_err(|e| *e), "case {seed}: a plan is judged otherwise");
    let (Ok(plan), Ok(expected)) = (read, expected) else { return 2 };
    let expected: Vec<Station> = expected.iter().map(record).collect();
    assert_eq!(plan.stations(), expected, "case {seed}: stations");
    let filler = Station::new(jambfennel::Config::default(), b"filler");
    let mut list = vec![filler; expected.len() + 2];
    let few = dice.below(expected.len() as u64) as usize;
    assert_eq!(wrong(plan.read_into(&mut list[..few]).map(|read| read.len())), Err((18, None)), "case {seed}: a list that is too short");
    assert!(list.iter().all(|station| *station == filler), "case {seed}: a refused reading changed the list");
    plan.read_into(&mut list).unwrap();
    assert!(list[..expected.len()] == expected[..] && list[expected.len()..] == [filler; 2], "case {seed}: a longer list");
    for (s, station) in expected.iter().enumerate() {
        assert_eq!(wrong(plan.name(s as u64)), Ok(station.name()), "case {seed}: a name");
    }
    assert_eq!(wrong(plan.name(expected.len() as u64)), Err((9, None)), "case {seed}: a name of no station");
    6 + expected.len() as u64
}

// An entry that an account of n stations takes.
fn entry(dice: &mut Dice, n: u64) -> (reference::Key, reference::Matter) {
    let time = dice.pick(&[0, 1_000, reference::H - 1, reference::H]);
    let source = if dice.one_in(2) { 65_535 } else { dice.below(n) };
    let matter = match dice.below(5) {
        0 | 1 => (1, 0),
        2 | 3 => (2, dice.below(n) + 256 * dice.below(4)),
        _ => (3, dice.pick(&[0, 5_000, 4_294_967_295])),
    };
    ((time, dice.below(n), source, dice.below(1 << 32)), matter)
}

// The same with one of its numbers at an edge, on either side of it.
fn edged(dice: &mut Dice, n: u64) -> (reference::Key, reference::Matter) {
    let (mut key, mut matter) = entry(dice, n);
    let stations = [n - 1, n, n + 1, 255, 256, 65_534, 65_535];
    match dice.below(5) {
        0 => key.0 = dice.pick(&[reference::H, reference::H + 1, (1 << 40) + (1 << 32), 1 << 63, u64::MAX]),
        1 => key.1 = dice.pick(&stations),
        2 => key.2 = dice.pick(&stations),
        3 => matter.0 = dice.pick(&[0, 1, 2, 3, 4, 257, 65_537, (1 << 24) + 1, 4_294_967_295]),
        _ => matter.1 = 256 * dice.below(5) + dice.pick(&[0, 1, n - 1, n, 255, 65_536, 4_294_901_760]),
    }
    (key, matter)
}

// A part of a log, mostly right.
fn part(dice: &mut Dice, n: u64) -> Vec<u8> {
    let count = dice.pick(&[0, 1, 1, 2, 3, 8, 40]);
    let near = if dice.one_in(4) { 1 + dice.below(count + 1) } else { 0 };
    let mut bytes: Vec<u8> = (1..=count)
        .flat_map(|k| {
            let (key, matter) = if k == near { edged(dice, n) } else { entry(dice, n) };
            reference::entry(key, matter)
        })
        .collect();
    match dice.below(12) {
        0 => bytes.truncate(dice.below(bytes.len() as u64 + 1) as usize),
        1 => bytes.extend((0..dice.below(49)).map(|_| dice.below(256) as u8)),
        2 if count > 0 => {
            for _ in 0..1 + dice.below(2) {
                let at = dice.below(bytes.len() as u64) as usize;
                bytes[at] ^= 1 << dice.below(8);
            }
        }
        3 if count > 0 => {
            let at = dice.below(bytes.len() as u64) as usize;
            bytes[at] = dice.below(256) as u8;
        }
        _ => {}
    }
    bytes
}

// An account: openings, parts and questions. The buffer stands between guard bytes; `mirror` has what all bytes must be. Counts the calls, the parts that are taken,
// and those that are refused with 19 and with 20.
fn charges(seed: u64) -> [u64; 4] {
    let mut dice = Dice(seed.wrapping_mul(0x8CB9_2BA7_2F3D_8DD7) | 1);
    let n = dice.pick(&[1, 2, 3, 40, 255, 256]);
    let enough = Account::bytes(n as usize);
    let size = enough + dice.pick(&[0, 0, 1, 8, 100]);
    let costs = [0; 2].map(|_| dice.pick(&[0, 1, 5, 7, 1 << 31, u32::MAX]));
    let other = |dice: &mut Dice| dice.pick(&[0, 1, 2, n - 1, n + 1, (size as u64 - 8) / 8 + 1, 256, 257, 65_536 + n, (1 << 32) + n, u64::MAX]);
    let mut all: Vec<u8> = (0..size + 64).map(|_| dice.below(256) as u8).collect();
    let mut mirror = all.clone();
    let mut counted = [0; 4];
    // openings that may be refused, in a part of the buffer
    for _ in 0..dice.below(4) {
        let end = 32 + dice.pick(&[0, 7, 8, enough - 8, enough - 1, enough, size]);
        let stations = if dice.one_in(2) { n } else { other(&mut dice) };
        let mut model = reference::Account::within(end - 32);
        let said = number(Account::open(stations, costs[1], costs[0], &mut all[32..end]).map(|_| ()));
        assert_eq!(said, model.open(stations, costs[1], costs[0]), "case {seed}: an opening of {stations} stations in {} bytes", end - 32);
        if said.is_ok() {
            mirror[32..32 + Account::bytes(stations as usize)].copy_from_slice(&model.bytes());
        }
        assert!(all == mirror, "case {seed}: bytes after an opening of {stations} stations in {} bytes", end - 32);
        counted[0] += 1;
    }
    let mut model = reference::Account::within(size);
    let opened = number(Account::open(n, costs[0], costs[1], &mut all[32..size + 32]).map(|_| ()));
    assert_eq!((opened, model.open(n, costs[0], costs[1])), (Ok(()), Ok(())), "case {seed}: the opening");
    mirror[32..enough + 32].copy_from_slice(&model.bytes());
    assert!(all == mirror, "case {seed}: bytes after the opening");
    // some are handed over with charges near the largest, or with any bytes
    match dice.below(4) {
        0 => {
            for _ in 0..1 + dice.below(4) {
                let at = 40 + 8 * dice.below(n) as usize;
                let charge = u64::MAX - dice.below(3) - dice.pick(&[0, 1, 2, 10]) * u64::from(dice.pick(&costs));
                all[at..at + 8].copy_from_slice(&charge.to_le_bytes());
            }
        }
        1 => all[32..enough + 32].iter_mut().for_each(|byte| *byte = if dice.one_in(2) { 255 } else { dice.below(256) as u8 }),
        _ => {}
    }
    mirror.copy_from_slice(&all);
    model = reference::Account::of(n, &all[32..size + 32]);
    let (mut start, mut log) = (model.clone(), vec![]);
    for _ in 0..10 + dice.below(40) {
        counted[0] += 1;
        let call = counted[0];
        let stations = if dice.one_in(12) { other(&mut dice) } else { n };
        let mut account = Account::resume(stations, &mut all[32..size + 32]);
        if dice.one_in(3) {
            let station = if dice.one_in(4) { dice.pick(&[n, n + 1, 256, 65_536, 1 << 32, u64::MAX]) } else { dice.below(n) };
            let simple = if stations == n { model.clone() } else { reference::Account::of(stations, &mirror[32..size + 32]) };
            assert_eq!(number(account.charge(station)), simple.charge(stations, station), "case {seed}, call {call}: charge {station} of {stations}");
        } else {
            let part = part(&mut dice, n);
            let said = number(account.read(&part));
            // with another N the answer is that of what the bytes stand for
            let mut simple = if stations == n { model.clone() } else { reference::Account::of(stations, &mirror[32..size + 32]) };
            assert_eq!(said, simple.read(stations, &part), "case {seed}, call {call}: a part of {} bytes for {stations} stations", part.len());
            match said {
                Ok(()) => {
                    counted[1] += 1;
                    mirror[32..32 + Account::bytes(stations as usize)].copy_from_slice(&simple.bytes());
                    if stations == n {
                        (model, log) = (simple, [log, part].concat());
                    } else {
                        model = reference::Account::of(n, &mirror[32..size + 32]);
                        (start, log) = (model.clone(), vec![]);
                    }
                }
                Err(19) => counted[2] += 1,
                Err(20) => counted[3] += 1,
                Err(_) => {}
            }
        }
        assert!(all == mirror, "case {seed}, call {call}: bytes");
    }
    let account = Account::resume(n, &mut all[32..size + 32]);
    assert!(account.charges().map(u128::from).eq(model.charges), "case {seed}: the charges at the end");
    let sum = start.charges.iter().sum::<u128>() + cost(start.reading, start.frame, &log);
    assert_eq!(account.total(), sum, "case {seed}: the sum of the charges");
    counted
}

// Lines of calls on an account with their answers, made on the library's and on the simple one. An opening of another length has a buffer of its own, between guard
// bytes.
fn accounts(lines: impl Iterator<Item = String>) -> [u64; 2] {
    let mut all = vec![0xA5u8; 64];
    let mut model = reference::Account::default();
    let mut part = vec![0xA5u8; 24 * 256];
    let mut counted = [0; 2];
    for line in lines {
        let (call, expected) = line.split_once(": ").unwrap_or((&line, ""));
        let mut words = call.split(' ');
        let name = words.next().unwrap();
        let numbers: Vec<u64> = words.map(|word| word.parse().expect("a number")).collect();
        if let ("open", &[.., bytes]) = (name, &numbers[..]) {
            counted[0] += 1;
            if bytes as usize != model.room {
                (model, all) = (reference::Account::within(bytes as usize), vec![0xA5; bytes as usize + 64]);
            }
        }
        let before = all.clone();
        let end = all.len() - 32;
        let buffer = &mut all[32..end];
        let told = |answer: Result<(), u64>| answer.map_or_else(|number| format!("no {number}"), |_| "ok".into());
        let units = |answer: Result<u64, u64>| answer.map_or_else(|number| format!("no {number}"), |units| units.to_string());
        let (said, simple) = match (name, &numbers[..]) {
            ("open", &[n, reading, frame, _]) => {
                let [reading, frame] = [reading, frame].map(|number| number.try_into().expect("32 bits"));
                (told(number(Account::open(n, reading, frame, buffer).map(|_| ()))), told(model.open(n, reading, frame)))
            }
            ("read", &[n, bytes]) => {
                let part = &part[..bytes as usize];
                (told(number(Account::resume(n, buffer).read(part))), told(model.read(n, part)))
            }
            ("charge", &[n, station]) => (units(number(Account::resume(n, buffer).charge(station))), units(model.charge(n, station))),
            ("sum", &[n]) => (Account::resume(n, buffer).total().to_string(), model.charges.iter().sum::<u128>().to_string()),
            // an entry of the part, a charge that the account is handed over with, the bytes after it
            ("entry", &[k, time, target, kind, source, number, value]) => {
                part[24 * k as usize..][..24].copy_from_slice(&reference::entry((time, target, source, number), (kind, value)));
                continue;
            }
            ("put", &[station, units]) => {
                buffer[8 + 8 * station as usize..][..8].copy_from_slice(&units.to_le_bytes());
                model.charges[station as usize] = units.into();
                continue;
            }
            ("", _) => continue,
            _ => panic!("no such call: {line}"),
        };
        assert!(said == expected && simple == expected, "{line}: the library says {said}, the simple account {simple}");
        let account = if model.n == 0 { vec![] } else { model.bytes() };
        let end = 32 + account.len();
        assert!(all[32..end] == account && all[..32] == before[..32] && all[end..] == before[end..], "{line}: bytes");
        counted[1] += 1;
    }
    counted
}

// Lines of calls on a calendar with their answers, made on the library's and on the simple one. Each opening has a buffer of its own, as long as the line says, between
// guard bytes.
fn calendars(lines: impl Iterator<Item = String>) -> [u64; 2] {
    let mut all = vec![0xA5u8; 64];
    let mut model = reference::Calendar::open(0, 16, 1);
    let mut counted = [0; 2];
    for line in lines {
        // the bytes on both sides of a part
        let Some((call, expected)) = line.split_once(": ") else { continue };
        let mut words = call.split(' ');
        let name = words.next().unwrap();
        let numbers: Vec<u64> = words.map(|word| word.parse().expect("a number")).collect();
        let told = |answer: Result<(), u64>| answer.map_or_else(|number| format!("no {number}"), |_| "ok".into());
        let found = |answer: reference::Lowest| answer.map_or_else(|number| format!("no {number}"), |(time, station, words)| format!("{station} {time} {words}"));
        let end = all.len() - 32;
        let mut calendar = Calendar::resume(&mut all[32..end]);
        let named = |lowest: Result<jambfennel::calendar::Lowest, Refusal>| number(lowest).map(|lowest| (lowest.time, lowest.station, lowest.words));
        let (said, simple) = match (name, &numbers[..]) {
            ("open", &[n, arity, width, bytes]) => {
                let mut next = vec![0xA5; bytes as usize + 64];
                let said = number(Calendar::open(n, arity, width, &mut next[32..bytes as usize + 32]).map(|_| ()));
                let simple = reference::open_calendar(n, arity, width, bytes);
                if simple.is_ok() {
                    (model, all) = (reference::Calendar::open(n, arity, width), next);
                } else {
                    assert!(next.iter().all(|byte| *byte == 0xA5), "{line}: a refused opening changed the buffer");
                }
                counted[0] += 1;
                (told(said), told(simple))
            }
            ("register", &[station, time]) => (told(number(calendar.register(station, time))), told(model.register(station, time))),
            ("unregister", &[station]) => (told(number(calendar.unregister(station))), told(model.unregister(station))),
            ("lowest", []) => (found(named(calendar.lowest())), found(model.lowest())),
            ("extract", []) => (found(named(calendar.extract())), found(model.extract())),
            ("advance", &[floor]) => (told(number(calendar.advance(floor))), told(model.advance(floor))),
            _ => panic!("no such call: {line}"),
        };
        assert!(said == expected && simple == expected, "{line}: the library says {said}, the simple calendar {simple}");
        assert!(all[..32].iter().chain(&all[all.len() - 32..]).all(|byte| *byte == 0xA5), "{line}: a byte outside the buffer");
        counted[1] += 1;
    }
    counted
}

fn in_stack<T: Send + 'static>(kib: usize, f: impl FnOnce() -> T + Send + 'static) -> T {
    std::thread::Builder::new().stack_size(1024 * kib).spawn(f).unwrap().join().expect("the thread ends")
}

fn main() {
    if let Some(kib) = std::env::args().nth(1).and_then(|a| a.strip_prefix("stack=").and_then(|k| k.parse().ok())) {
        println!("a rollback of {} events in a stack of {kib} KiB", in_stack(kib, cascade));
        return;
    }
    if std::env::args().nth(1).as_deref() == Some("calendars") {
        let [openings, calls] = calendars(std::io::stdin().lock().lines().map(|line| line.expect("text")));
        println!("{openings} openings of calendars, {calls} calls: answers as those of tools/calendar.py and of the simple calendar");
        return;
    }
    if std::env::args().nth(1).as_deref() == Some("accounts") {
        let [openings, calls] = accounts(std::io::stdin().lock().lines().map(|line| line.expect("text")));
        println!("{openings} openings of accounts, {calls} calls: answers as those of tools/account.py and of the simple account");
        return;
    }
    let arguments: Vec<u64> = std::env::args().skip(1).map(|a| a.parse().expect("a number")).collect();
    let cases = arguments.first().copied().unwrap_or(2_000);
    let seed = arguments.get(1).copied().unwrap_or(1);
    let calls: u64 = (seed..seed + cases).map(plans).sum();
    println!("{cases} lists of stations and {cases} plans, {calls} calls: bytes, records, names and refusals as in the simple reader and writer");
    let calls: u64 = (seed..seed + cases).map(openings).sum();
    println!("{calls} openings: answers as the paper's list of numbers has them");
    let calls: u64 = (seed..seed + cases).map(compare).sum();
    println!("{cases} lists, {calls} calls: answers, logs and records as in the simple engine and the plain machine, and an account takes each log");
    let counted = (seed..seed + cases).map(charges).fold([0; 4], |sums, counted| std::array::from_fn(|k| sums[k] + counted[k]));
    let [calls, taken, parts, over] = counted;
    println!("{cases} accounts, {calls} calls: answers and bytes as in the simple account; {taken} parts taken, {parts} refused with 19, {over} with 20");
    let calls: u64 = (seed..seed + cases).map(damage).sum();
    println!("{cases} damaged buffers, {calls} calls: each ended, stayed in its buffer, and changed nothing where it was refused");
    println!("a rollback of {} events, and 2000 damaged ones, in a stack of 256 KiB", in_stack(256, cascade));
}
