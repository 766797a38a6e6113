//! The four calendar shapes (document 02, change 9), on numbers worked out by hand: a block is arity squared leaves, the ring 16 blocks from the floor's, and the
//! calendar has 128 times arity squared bytes and 64 a station. Then drawn calls against std's BTreeSet, and calls on bytes that no opening left.
use jambfennel::calendar::{Calendar, Lowest};
use jambfennel::{Engine, Matter, Refusal, ARITIES, HORIZON};

#[path = "../reference/mod.rs"]
mod reference;
use reference::Dice;

const PLAN: &[u8] = include_bytes!("../../crates/bench/data/plan.bin");

/// Every other number is refused with 26, those among them that 8, 16 or 32 bits would take for 16.
const WRONG: [u64; 13] = [0, 1, 2, 4, 7, 9, 12, 24, 128, 272, 65_552, 4_294_967_312, u64::MAX];

fn numbers(lowest: Result<Lowest, Refusal>) -> reference::Lowest {
    lowest.map(|lowest| (lowest.time, lowest.station, lowest.words)).map_err(|refusal| refusal.number)
}

fn number<T>(answer: Result<T, Refusal>) -> Result<T, u64> {
    answer.map_err(|refusal| refusal.number)
}

/// What the opening of a calendar on so many bytes answers; a refused one leaves them as they were.
fn opens(n: u64, arity: u64, width: u64, bytes: usize) -> Result<(), u64> {
    let mut buffer = vec![0xA5; bytes];
    let answer = number(Calendar::open(n, arity, width, &mut buffer).map(|_| ()));
    assert!(answer.is_ok() || buffer.iter().all(|byte| *byte == 0xA5));
    answer
}

/// The same of an engine.
fn opens_engine(plan: &[u8], arity: u64, width: u64, capacity: u64, bytes: usize) -> Result<(), Refusal> {
    let mut buffer = vec![0xA5; bytes];
    let answer = Engine::open(plan, arity, width, capacity, &mut buffer).map(|_| ());
    assert!(answer.is_ok() || buffer.iter().all(|byte| *byte == 0xA5));
    answer
}

fn with_calendar(n: u64, arity: u64, width: u64, calls: impl FnOnce(Calendar)) {
    let mut buffer = vec![0xA5; Calendar::bytes(arity, n as usize)];
    calls(Calendar::open(n, arity, width, &mut buffer).unwrap());
}

// ---- openings

#[test]
fn just_enough_bytes() {
    for (arity, enough) in [(8, 8_256), (16, 32_832), (32, 131_136), (64, 524_352)] {
        assert_eq!(Calendar::bytes(arity, 1), enough);
        assert_eq!(opens(1, arity, 64, enough - 1), Err(7));
        assert_eq!(opens(1, arity, 64, enough), Ok(()));
    }
    for (arity, enough) in [(8, 24_576), (16, 49_152), (32, 147_456), (64, 540_672)] {
        assert_eq!(Calendar::bytes(arity, 256), enough);
        assert_eq!(opens(256, arity, 1, enough - 1), Err(7));
        assert_eq!(opens(256, arity, 1, enough), Ok(()));
        assert_eq!(opens(257, arity, 1, enough + 64), Err(7));
        assert_eq!(opens(0, arity, 1, enough), Err(7));
    }
    for (arity, enough) in [(8, 25_088), (16, 49_664), (32, 147_968), (64, 541_184)] {
        assert_eq!(Engine::bytes(arity, 2, 64), enough);
        assert_eq!(number(opens_engine(PLAN, arity, 64, 64, enough - 1)), Err(7));
        assert_eq!(number(opens_engine(PLAN, arity, 64, 64, enough)), Ok(()));
    }
    // the least engine that there is
    let one = reference::plan_bytes(&[reference::Config { parent: 0, calm: 1, spring: 1, threshold: 0, hop: 1, noise: 0, seed: 1 }]);
    assert_eq!(Engine::bytes(8, 1, 2), 8_960);
    assert_eq!(number(opens_engine(&one, 8, 1, 2, 8_959)), Err(7));
    assert_eq!(number(opens_engine(&one, 8, 1, 2, 8_960)), Ok(()));
}

#[test]
fn the_arity_is_judged_after_the_plan_and_before_the_width() {
    assert_eq!(opens(0, 7, 0, 0), Err(26));
    assert_eq!(opens(0, 8, 0, 0), Err(6));
    assert_eq!(opens(0, 8, 1, 0), Err(7));
    for (plan, refusal) in [
        (&[][..], Refusal { number: 1, station: None }),
        (&[1, 0, 10, 0, 0, 0, 25, 0, 0, 0][..], Refusal { number: 2, station: Some(0) }),
        (&[PLAN, &[0]].concat()[..], Refusal { number: 3, station: None }),
        (&[&PLAN[..PLAN.len() - 4], &[0; 4]].concat()[..], Refusal { number: 4, station: Some(1) }),
        (PLAN, Refusal { number: 26, station: None }),
    ] {
        assert_eq!(opens_engine(plan, 7, 0, 0, 0), Err(refusal));
    }
    assert_eq!(number(opens_engine(PLAN, 8, 0, 0, 0)), Err(6));
    assert_eq!(number(opens_engine(PLAN, 8, 1, 0, 0)), Err(7));
    assert_eq!(number(opens_engine(PLAN, 8, 1, 2, 0)), Err(7));
}

#[test]
fn no_other_arity() {
    for arity in WRONG {
        assert_eq!(opens(1, arity, 64, 524_352), Err(26));
        assert_eq!(number(opens_engine(PLAN, arity, 64, 64, 541_184)), Err(26));
        // a buffer can be asked for all the same
        assert_eq!(opens(256, arity, 64, Calendar::bytes(arity, 256)), Err(26));
        assert_eq!(number(opens_engine(PLAN, arity, 64, 64, Engine::bytes(arity, 2, 64))), Err(26));
    }
    assert_eq!(opens_engine(PLAN, 12, 64, 64, 0).unwrap_err().to_string(), "refusal 26: the arity is not 8, 16, 32 or 64");
    for arity in ARITIES {
        assert_eq!(opens(1, arity, 64, 524_352), Ok(()));
    }
}

// ---- the ring

/// The time is registered at the floor 0, and the floor raised after that.
fn counted(arity: u64, width: u64, time: u64, floor: u64) -> u64 {
    let mut words = 0;
    with_calendar(2, arity, width, |mut calendar| {
        calendar.register(1, time).unwrap();
        calendar.advance(floor).unwrap();
        let lowest = calendar.lowest().unwrap();
        assert_eq!((lowest.time, lowest.station), (time, 1));
        assert_eq!(calendar.extract(), Ok(lowest));
        assert_eq!(numbers(calendar.extract()), Err(14));
        words = lowest.words;
    });
    words
}

/// In blocks of `span` ms, one to 16 of them in the ring.
fn edges(arity: u64, width: u64, span: u64) {
    let ring = 16 * span;
    for (floor, time, words) in [
        (0, 0, 2),
        (0, span - 1, 2),
        (0, span, 3),
        (0, 15 * span - 1, 16),
        (0, 15 * span, 17),
        // the last leaf of slot 15, and the overflow table
        (0, ring - 1, 17),
        (0, ring, 16),
        (span - 1, ring, 16),
        // slot 0 now
        (span, ring, 17),
        (span, ring + span, 16),
        (15 * span, ring, 3),
        (ring, ring, 2),
        (0, HORIZON, 16),
        (HORIZON, HORIZON, 2),
    ] {
        assert_eq!(counted(arity, width, time, floor), words, "arity {arity}, width {width}, floor {floor}, time {time}");
    }
}

#[test]
fn the_edges_of_the_ring() {
    for (arity, span) in [(8, 4_096), (16, 16_384), (32, 65_536), (64, 262_144)] {
        edges(arity, 64, span);
    }
    for (arity, span) in [(8, 64), (16, 256), (32, 1_024), (64, 4_096)] {
        edges(arity, 1, span);
    }
    for (arity, span) in [(8, 67_108_864), (16, 268_435_456), (32, 1_073_741_824), (64, 4_294_967_296)] {
        edges(arity, 1_048_576, span);
    }
    for (arity, span) in [(8, 192), (16, 768), (32, 3_072), (64, 12_288)] {
        edges(arity, 3, span);
    }
}

/// Distances of over 32 bits in the ring.
#[test]
fn the_longest_ring() {
    for (time, words) in [(4_294_967_295, 2), (4_294_967_296, 3), (68_719_476_735, 17), (68_719_476_736, 16)] {
        assert_eq!(counted(64, 1_048_576, time, 0), words);
    }
}

/// Leaf numbers, and places of lists, of over 16 bits.
#[test]
fn two_stations_in_the_last_leaf() {
    for (arity, first, last) in [(8, 65_472, 65_535), (16, 262_080, 262_143), (32, 1_048_512, 1_048_575), (64, 4_194_240, 4_194_303)] {
        with_calendar(7, arity, 64, |mut calendar| {
            calendar.register(5, first).unwrap();
            calendar.register(6, last).unwrap();
            assert_eq!(numbers(calendar.lowest()), Ok((first, 5, 17)));
            calendar.unregister(5).unwrap();
            assert_eq!(numbers(calendar.lowest()), Ok((last, 6, 17)));
            assert_eq!(numbers(calendar.extract()), Ok((last, 6, 17)));
            assert_eq!(numbers(calendar.lowest()), Err(14));
        });
    }
}

/// A station in each 256th of the ring, or in each of its first leaves: the bits of every node and root, set, found and cleared.
#[test]
fn all_over_the_ring() {
    for arity in ARITIES {
        let leaves = 16 * arity * arity;
        for step in [1, leaves / 256] {
            with_calendar(256, arity, 3, |mut calendar| {
                // in another order than that of their times
                for s in (0..256).map(|k| k * 77 % 256) {
                    calendar.register(s, 3 * step * s + s % 3).unwrap();
                }
                for s in 0..256 {
                    let words = step * s / (arity * arity) + 2;
                    assert_eq!(numbers(calendar.extract()), Ok((3 * step * s + s % 3, s, words)), "arity {arity}");
                }
                assert_eq!(numbers(calendar.extract()), Err(14));
            });
        }
    }
}

#[test]
fn all_in_the_overflow_table() {
    for arity in ARITIES {
        let ring = 16 * arity * arity;
        with_calendar(256, arity, 1, |mut calendar| {
            // each time twice, so that there are ties
            let time = |s: u64| ring + 5 * (s % 128) + 1_000_000 * (s % 3);
            for s in (0..256).map(|k| k * 45 % 256) {
                calendar.register(s, time(s)).unwrap();
            }
            let mut order: Vec<(u64, u64)> = (0..256).map(|s| (time(s), s)).collect();
            order.sort();
            for (time, station) in order {
                assert_eq!(numbers(calendar.extract()), Ok((time, station, 16)), "arity {arity}");
            }
            assert_eq!(numbers(calendar.extract()), Err(14));
        });
        // an advance brings all of them in
        with_calendar(256, arity, 1, |mut calendar| {
            for s in 0..256 {
                calendar.register(s, 2 * ring - 1 - s / 2).unwrap();
            }
            assert_eq!(numbers(calendar.lowest()), Ok((2 * ring - 128, 254, 16)));
            calendar.advance(ring).unwrap();
            for s in (0..256).map(|k| 254 - k / 2 * 2 + k % 2) {
                let time = 2 * ring - 1 - s / 2;
                assert_eq!(numbers(calendar.extract()), Ok((time, s, (time - ring) / (arity * arity) + 2)), "arity {arity}");
            }
        });
    }
}

// ---- drawn calls

/// Calls on a buffer of just enough bytes, and on std's BTreeSet.
#[test]
fn the_same_answers_as_a_set() {
    let mut dice = Dice(0x9E37_79B9_7F4A_7C15);
    for arity in ARITIES {
        for (n, width, rings) in [(256, 64, 2), (7, 1, 2), (256, 1, 40), (32, 1_048_576, 1), (40, 3, 1), (1, 64, 3), (256, 1000, 0)] {
            // within the ring's first block, or reaching so many rings on
            let span = arity * arity * width * if rings == 0 { 1 } else { 16 * rings };
            let bytes = Calendar::bytes(arity, n as usize);
            let mut all = vec![0xA5; bytes + 64];
            let mut calendar = Calendar::open(n, arity, width, &mut all[32..bytes + 32]).unwrap();
            let mut model = reference::Calendar::open(n, arity, width);
            for _ in 0..4_000 {
                let station = dice.below(n + 1);
                let time = (model.floor + dice.below(span)).saturating_sub(dice.below(5));
                match dice.below(8) {
                    0..=2 => assert_eq!(number(calendar.register(station, time)), model.register(station, time)),
                    3 => assert_eq!(number(calendar.unregister(station)), model.unregister(station)),
                    4 | 5 => assert_eq!(numbers(calendar.extract()), model.extract()),
                    _ => {
                        let least = model.set.first().map_or(model.floor + dice.below(span / 8 + 1), |x| x.0);
                        let floors = [least, model.floor + dice.below(span / 64 + 1), model.floor.saturating_sub(1) + dice.below(3)];
                        let floor = dice.pick(&floors);
                        assert_eq!(number(calendar.advance(floor)), model.advance(floor));
                    }
                }
                assert_eq!(numbers(calendar.lowest()), model.lowest(), "arity {arity}, width {width}");
            }
            assert!(all[..32].iter().chain(&all[bytes + 32..]).all(|byte| *byte == 0xA5));
        }
    }
}

/// An engine at each arity, on a line of which some events lie after the ring: all but the count is the same, and the count is the simple engine's.
#[test]
fn the_same_answers_as_a_simple_engine() {
    let line: Vec<_> = (0..8).map(|s: u32| reference::Config { parent: s.saturating_sub(1) as u16 / 2, calm: 900, spring: 300, threshold: 5, hop: 40 + s, noise: 500_000_000, seed: 1 + s }).collect();
    let plan = reference::plan_bytes(&line);
    let mut printed: Option<Vec<String>> = None;
    for arity in ARITIES {
        for width in [1, 2, 7] {
            let mut dice = Dice(77);
            let mut buffer = vec![0xA5; Engine::bytes(arity, 8, 64)];
            let mut engine = Engine::open(&plan, arity, width, 64, &mut buffer).unwrap();
            let mut model = reference::Engine::open(&line, arity, width, 64);
            let mut lines = vec![];
            for _ in 0..600 {
                let (station, time) = (dice.below(8), model.now + dice.below(3_000));
                match dice.below(8) {
                    0 => {
                        let posted = number(engine.post(station, time, Matter::Reading)).map(|posted| (posted.number, posted.undone));
                        assert_eq!(posted, model.post(station, time, 1, 0));
                        lines.push(format!("{posted:?}"));
                    }
                    1 => {
                        let mut output = [0; 24 * 64];
                        let time = model.now + dice.below(600);
                        let log = number(engine.commit(time, &mut output).map(|log| log.len()));
                        assert_eq!(log, model.commit(time, 24 * 64).map(|log| log.len()));
                        lines.push(format!("{log:?}"));
                    }
                    _ => {
                        let run = number(engine.run_lowest()).map(|run| (run.station, run.undone, run.words));
                        assert_eq!(run, model.run_lowest(), "arity {arity}, width {width}");
                        lines.push(format!("{:?}", run.map(|(station, undone, _)| (station, undone))));
                    }
                }
            }
            assert_eq!(*printed.get_or_insert(lines.clone()), lines, "arity {arity}, width {width}");
        }
    }
}

// ---- bytes that no opening left

/// The eighth word of a calendar's bytes names its shape: any number there does no harm.
const ROWS: [u64; 14] = [0, 1, 2, 3, 4, 5, 6, 7, 61, 64, 255, 1 << 32, 1 << 63, u64::MAX];

fn fill(dice: &mut Dice, bytes: &mut [u8]) {
    bytes.chunks_mut(7).for_each(|chunk| {
        let drawn = dice.below(u64::MAX).to_le_bytes();
        chunk.copy_from_slice(&drawn[..chunk.len()]);
    });
}

/// Twenty calls: each ends, writes nothing outside of the part, and where it is refused nothing at all.
fn call_all(dice: &mut Dice, all: &mut [u8], from: usize, to: usize) {
    for _ in 0..20 {
        let before = all.to_vec();
        let mut calendar = Calendar::resume(&mut all[from..to]);
        let time = dice.pick(&[0, 500, 5_000, 600_000, 1 << 33, HORIZON]) + dice.below(100);
        let refused = match dice.below(5) {
            0 => calendar.register(dice.below(300), time).is_err(),
            1 => calendar.unregister(dice.below(300)).is_err(),
            2 => numbers(calendar.extract()).map(|(_, _, words)| assert!(words <= 17)).is_err(),
            3 => calendar.advance(time).is_err(),
            _ => {
                let _ = numbers(calendar.lowest()).map(|(_, _, words)| assert!(words <= 17));
                true
            }
        };
        if refused {
            assert!(before == all, "a refused call changed the buffer");
        }
        assert!(before[..from] == all[..from] && before[to..] == all[to..], "a byte outside the buffer");
    }
}

#[test]
fn calendars_of_any_bytes() {
    let mut dice = Dice(3);
    for arity in ARITIES {
        let bytes = Calendar::bytes(arity, 256);
        let mut all = vec![0xA5; bytes + 128];
        for row in ROWS {
            for kind in 0..4 {
                match kind {
                    // random bytes in the whole buffer
                    0 => fill(&mut dice, &mut all[64..bytes + 64]),
                    // .. with numbers in its header that may belong to a calendar
                    1 => {
                        fill(&mut dice, &mut all[64..bytes + 64]);
                        for (k, word) in [1 + dice.below(100), 5, 0, 70_000, 1 << 40, dice.below(16), 256].into_iter().enumerate() {
                            all[64 + 8 * k..72 + 8 * k].copy_from_slice(&word.to_le_bytes());
                        }
                    }
                    // a calendar of another shape
                    2 => {
                        let mut calendar = Calendar::open(256, arity, 64, &mut all[64..bytes + 64]).unwrap();
                        (0..256).for_each(|s| calendar.register(s, dice.below(20 * 64 * arity * arity)).unwrap());
                    }
                    // small numbers, which lead somewhere
                    _ => all[64..bytes + 64].iter_mut().for_each(|byte| *byte = if dice.one_in(4) { dice.below(4) as u8 } else { 0 }),
                }
                all[64 + 56..64 + 64].copy_from_slice(&row.to_le_bytes());
                // whole, or shorter than any calendar, or than this one
                let to = 64 + dice.pick(&[bytes, bytes, bytes, 0, 63, 64, 7_656, 8_191, 8_192, bytes / 2]).min(bytes);
                call_all(&mut dice, &mut all, 64, to);
            }
        }
    }
}

#[test]
fn engines_of_any_bytes() {
    let mut dice = Dice(4);
    for arity in ARITIES {
        let bytes = Engine::bytes(arity, 2, 64);
        // the calendar lies after the header, two stations, 64 slots and their links
        let calendar = 32 + 72 + 144 * 2 + 72 * 64;
        let mut all = vec![0xA5; bytes + 64];
        for row in ROWS {
            for kind in 0..3 {
                {
                    let mut engine = Engine::open(PLAN, arity, 64, 64, &mut all[32..bytes + 32]).unwrap();
                    (0..10).for_each(|k| assert!(engine.post(1, 100 * k, Matter::Reading).is_ok()));
                    (0..10).for_each(|_| assert!(engine.run_lowest().is_ok()));
                }
                match kind {
                    0 => fill(&mut dice, &mut all[32..bytes + 32]),
                    1 => fill(&mut dice, &mut all[calendar..bytes + 32]),
                    _ => {}
                }
                all[calendar + 56..calendar + 64].copy_from_slice(&row.to_le_bytes());
                for _ in 0..12 {
                    let before = all.clone();
                    let mut engine = Engine::resume(&mut all[32..bytes + 32]);
                    let refused = match dice.below(5) {
                        0 => engine.post(dice.below(3), dice.below(100_000), Matter::Level(1)).is_err(),
                        1 => engine.retract(dice.below(12)).is_err(),
                        2 => engine.run_station(dice.below(3)).is_err(),
                        3 => engine.run_lowest().is_err(),
                        _ => engine.commit(dice.below(2_000), &mut [0; 24 * 64]).is_err(),
                    };
                    assert!(!refused || before == all, "a refused call changed the buffer");
                    assert!(before[..32] == all[..32] && before[bytes + 32..] == all[bytes + 32..], "a byte outside the buffer");
                }
            }
        }
    }
}
