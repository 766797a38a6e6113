//! Ties (document 02, change 3): of the stations of the lowest time the lowest-numbered one is named, whatever the arity, the leaf width and what the buffers held.
use jambfennel::calendar::{Calendar, Lowest};
use jambfennel::{Config, Engine, Entry, Matter, Plan, Refusal, Station, ARITIES};

/// Arities and leaf widths, with how many ms the ring covers: 16 blocks of arity squared leaves.
fn shapes() -> impl Iterator<Item = (u64, u64, u64)> {
    ARITIES.into_iter().flat_map(|arity| [1, 64, 1000, 1_048_576].map(|width| (arity, width, 16 * arity * arity * width)))
}

/// A calendar with stations 200, 3 and 9 registered at one time.
fn tied(arity: u64, width: u64, time: u64, calls: impl FnOnce(Calendar)) {
    let mut buffer = vec![0xA5; Calendar::bytes(arity, 256)];
    let mut calendar = Calendar::open(256, arity, width, &mut buffer).unwrap();
    [200, 3, 9].iter().for_each(|s| calendar.register(*s, time).unwrap());
    calls(calendar);
}

/// The time and the station.
fn named(lowest: Result<Lowest, Refusal>) -> (u64, u64) {
    lowest.map(|lowest| (lowest.time, lowest.station)).unwrap()
}

fn taken_in_order(mut calendar: Calendar, time: u64) {
    for station in [3, 9, 200] {
        assert_eq!(named(calendar.lowest()), (time, station));
        assert_eq!(named(calendar.extract()), (time, station));
    }
    assert_eq!(calendar.lowest().unwrap_err().number, 14);
}

#[test]
fn in_a_leaf_and_in_the_overflow_table() {
    for (arity, width, ring) in shapes() {
        for time in [0, 100, ring - 1, ring, 1_099_511_627_775] {
            tied(arity, width, time, |calendar| taken_in_order(calendar, time));
        }
    }
}

#[test]
fn brought_in_by_an_advance() {
    for (arity, width, ring) in shapes() {
        let time = ring + ring / 4;
        tied(arity, width, time, |mut calendar| {
            calendar.advance(ring / 2).unwrap();
            taken_in_order(calendar, time);
        });
    }
}

#[test]
fn moved_away_and_back() {
    for (arity, width, ring) in shapes() {
        for time in [500, ring + ring / 4] {
            tied(arity, width, time, |mut calendar| {
                calendar.register(3, time + 1).unwrap();
                assert_eq!(named(calendar.lowest()), (time, 9));
                calendar.register(3, time).unwrap();
                taken_in_order(calendar, time);
            });
        }
    }
}

/// Two stations, opened in a buffer of such bytes.
fn with_engine(arity: u64, width: u64, capacity: u64, held: u8, calls: impl FnOnce(Engine)) {
    let station = Station::new(Config { parent: 0, calm: 1000, spring: 200, threshold: 5000, hop: 30, noise: 0, seed: 1 }, b"");
    let mut bytes = [0; Plan::bytes_for(2)];
    let plan = Plan::write(&[station, station], &mut bytes).unwrap();
    let mut buffer = vec![held; Engine::bytes(arity, 2, capacity as usize)];
    calls(Engine::open(&plan, arity, width, capacity, &mut buffer).unwrap());
}

/// The lists of rules_worked/proofs/Ties.
#[test]
fn run_lowest_runs_the_lower_station() {
    with_engine(16, 64, 8, 0, |mut engine| {
        engine.post(1, 5, Matter::Level(1)).unwrap();
        engine.post(0, 5, Matter::Level(1)).unwrap();
        assert_eq!(engine.run_lowest().unwrap().station, 0);
        assert_eq!(engine.run_lowest().unwrap().station, 1);
        assert_eq!(engine.run_lowest().unwrap_err().number, 14);
    });
}

#[test]
fn a_refused_one_is_that_stations() {
    with_engine(16, 64, 2, 0, |mut engine| {
        engine.post(1, 0, Matter::Reading).unwrap();
        engine.post(0, 0, Matter::Level(7)).unwrap();
        assert_eq!(engine.run_lowest().unwrap().station, 0);
        assert_eq!(engine.run_lowest().unwrap_err().number, 17);
    });
}

/// Two printouts of one plan: every answer and every entry, in words. The counts of bitmap words read stand apart, since they alone go by the arity and the
/// leaf width.
#[test]
fn two_printouts_are_the_same() {
    let printout = |arity, width, held: u8| {
        let (mut lines, mut counts) = (vec![], vec![]);
        with_engine(arity, width, 16, held, |mut engine| {
            // both stations are due at each of these times; 70 and 90 come late
            for time in [0, 40, 100, 70, 90, 130] {
                for (station, matter) in [(1, Matter::Reading), (0, Matter::Level(9)), (0, Matter::Frame { origin: 1, repeats: 0 })] {
                    lines.push(format!("{:?}", engine.post(station, time, matter)));
                }
                for _ in 0..5 {
                    let run = engine.run_lowest();
                    lines.push(format!("{:?}", run.map(|run| (run.station, run.undone))));
                    counts.push(run.map(|run| run.words));
                }
                let mut output = [held; 24 * 8];
                let log = engine.commit(time.min(65), &mut output).map(|log| log.collect::<Vec<Entry>>());
                lines.push(format!("{log:?}"));
            }
            (0..3).for_each(|s| lines.push(format!("{:?}", engine.record(s))));
        });
        (lines, counts)
    };
    let (first, counts) = printout(16, 1, 0);
    assert!(first.iter().any(|line| line.contains("Entry")) && first.iter().any(|line| line.contains("17")));
    assert_eq!(printout(16, 1, 0xFF), (first.clone(), counts));
    for (arity, width, held) in [(16, 64, 0), (16, 1000, 0xA5), (16, 1_048_576, 7), (8, 1, 0x5A), (32, 1, 0xFF), (64, 1, 1), (64, 1_048_576, 0)] {
        assert_eq!(printout(arity, width, held).0, first);
    }
}
