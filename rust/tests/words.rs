//! Bitmap words read (document 02, change 5), on numbers worked out by hand: at arity 16 a block is 256 leaves, and the ring the 16 blocks from the floor's. The
//! engine's lists are those of rules_worked/proofs/Words.
use jambfennel::{Calendar, Engine, Matter, Refusal, RunLowest};

const PLAN: &[u8] = include_bytes!("../../crates/bench/data/plan.bin");

/// An engine of the bench program's plan.
fn with_engine(arity: u64, width: u64, capacity: u64, calls: impl FnOnce(Engine)) {
    let mut buffer = vec![0xA5; Engine::bytes(arity, 2, capacity as usize)];
    calls(Engine::open(PLAN, arity, width, capacity, &mut buffer).unwrap());
}

/// The bench program's worked list: what its five runs answer.
fn bench(arity: u64, width: u64) -> Vec<RunLowest> {
    let mut runs = vec![];
    with_engine(arity, width, 64, |mut engine| {
        engine.post(1, 0, Matter::Reading).unwrap();
        (0..3).for_each(|_| runs.push(engine.run_lowest().unwrap()));
        engine.post(1, 500, Matter::Level(5000)).unwrap();
        (0..2).for_each(|_| runs.push(engine.run_lowest().unwrap()));
        assert_eq!(engine.commit(1001, &mut [0; 1536]).unwrap().len(), 4);
    });
    runs
}

/// The runs are at 0, 30, 1000, 500 and 1000.
#[test]
fn the_worked_list() {
    let of = |words: [u64; 5]| [1, 0, 1, 1, 1].iter().zip(words).map(|(&station, words)| RunLowest { station, undone: 0, words }).collect::<Vec<_>>();
    assert_eq!(bench(16, 1), of([2, 2, 5, 3, 5]));
    assert_eq!(bench(16, 2), of([2, 2, 3, 2, 3]));
    assert_eq!(bench(16, 64), of([2, 2, 2, 2, 2]));
    // a block of 64 ms, of 1024 and of 4096
    assert_eq!(bench(8, 1), of([2, 2, 17, 9, 17]));
    assert_eq!(bench(32, 1), of([2, 2, 2, 2, 2]));
    assert_eq!(bench(64, 1), of([2, 2, 2, 2, 2]));
}

/// The count of a level at some time, run when these commits have raised the floor.
fn counted(time: u64, commits: &[u64]) -> u64 {
    let mut words = 0;
    with_engine(16, 1, 8, |mut engine| {
        engine.post(0, time, Matter::Level(1)).unwrap();
        commits.iter().for_each(|commit| assert_eq!(engine.commit(*commit, &mut []).unwrap().len(), 0));
        words = engine.run_lowest().unwrap().words;
    });
    words
}

#[test]
fn in_the_ring_and_after_it() {
    // blocks 0, 1, 14, 15, and 16, which no root has
    for (time, words) in [(0, 2), (255, 2), (256, 3), (3839, 16), (3840, 17), (4095, 17), (4096, 16), (1_099_511_627_775, 16)] {
        assert_eq!(counted(time, &[]), words);
    }
    // the ring ends at 4096, at 4864, and then at 5120
    assert_eq!(counted(4900, &[]), 16);
    assert_eq!(counted(4900, &[1001]), 16);
    assert_eq!(counted(4900, &[1001, 1024]), 17);
    assert_eq!(counted(4900, &[4863]), 3);
    assert_eq!(counted(4900, &[4864]), 2);
}

/// The count is that of the state before the run; a station counts with its lowest time alone, and the other stations' times after it count for nothing.
#[test]
fn of_what_the_run_finds() {
    with_engine(16, 1, 8, |mut engine| {
        for (station, time) in [(1, 700), (0, 300), (1, 1500)] {
            engine.post(station, time, Matter::Level(1)).unwrap();
        }
        let words = [(); 3].map(|_| engine.run_lowest().unwrap().words);
        assert_eq!(words, [3, 4, 7]);
    });
}

#[test]
fn a_refusal_has_none() {
    with_engine(16, 1, 2, |mut engine| {
        let refused: Result<RunLowest, Refusal> = engine.run_lowest();
        assert_eq!(refused.unwrap_err(), Refusal { number: 14, station: None });
        engine.post(1, 0, Matter::Reading).unwrap();
        engine.post(1, 300, Matter::Level(7)).unwrap();
        assert_eq!(engine.run_lowest().unwrap_err(), Refusal { number: 17, station: None });
    });
}

/// Engines whose arities or leaf widths differ: the counts alone tell them apart.
#[test]
fn other_shapes_differ_in_the_count_alone() {
    let answers = |arity, width| {
        let (mut answers, mut counts) = (vec![], vec![]);
        with_engine(arity, width, 16, |mut engine| {
            for time in [0, 900, 300, 2000, 1100, 6000, 5000] {
                answers.push(engine.post(1, time, Matter::Reading).map(|posted| (posted.number, posted.undone)));
                for _ in 0..4 {
                    let run = engine.run_lowest();
                    answers.push(run.map(|run| (run.station, run.undone)));
                    counts.extend(run.map(|run| run.words));
                }
                answers.push(engine.commit(time / 2, &mut [0; 24 * 16]).map(|log| (log.len() as u64, 0)));
            }
        });
        (answers, counts)
    };
    let (first, counts) = answers(16, 1);
    assert!(counts.iter().all(|words| (2..=17).contains(words)) && counts.iter().any(|words| *words > 5));
    for (arity, width) in [(16, 2), (16, 64), (16, 1_048_576), (8, 1), (32, 1), (64, 1)] {
        let (same, other) = answers(arity, width);
        assert_eq!(same, first);
        assert!(other != counts && other.len() == counts.len());
    }
}

/// The calendar's edges at arity 16 and leaf width 64: a block is 16384 ms. The time is registered at the floor 0, and the floor raised after that.
#[test]
fn the_calendars() {
    for (floor, time, words) in [
        (0, 0, 2),
        (0, 16_383, 2),
        (0, 16_384, 3),
        (0, 245_759, 16),
        (0, 245_760, 17),
        (0, 262_143, 17),
        (0, 262_144, 16),
        (16_383, 262_144, 16),
        (16_384, 262_144, 17),
        (16_384, 278_528, 16),
        (245_760, 262_144, 3),
        (262_144, 262_144, 2),
    ] {
        let mut buffer = vec![0xA5; Calendar::bytes(16, 2)];
        let mut calendar = Calendar::open(2, 16, 64, &mut buffer).unwrap();
        calendar.register(1, time).unwrap();
        calendar.advance(floor).unwrap();
        let lowest = calendar.lowest().unwrap();
        assert_eq!((lowest.time, lowest.station, lowest.words), (time, 1, words), "floor {floor}");
        assert_eq!(calendar.extract(), Ok(lowest));
        assert_eq!(calendar.extract().unwrap_err().number, 14);
    }
}
