//! The last frame heard (document 02, change 7), on numbers worked out by hand: two stations with parent 0, a hop of 30 and seed 1, so that the draws are
//! 1, 16807, 282475249. The lists are those of rules_worked/proofs/LastFrame.
use jambfennel::{Config, Engine, Matter, Plan, State, Station};

const FRAME: Matter = Matter::Frame { origin: 0, repeats: 0 };

/// An engine of the two stations at some noise.
fn with_engine(noise: u32, calls: impl FnOnce(Engine)) {
    let station = Station::new(Config { parent: 0, calm: 1000, spring: 200, threshold: 5000, hop: 30, noise, seed: 1 }, b"");
    let mut bytes = [0; Plan::bytes_for(2)];
    let plan = Plan::write(&[station, station], &mut bytes).unwrap();
    let mut buffer = vec![0xA5; Engine::bytes(16, 2, 8)];
    calls(Engine::open(&plan, 16, 64, 8, &mut buffer).unwrap());
}

fn run(engine: &mut Engine, times: usize) {
    (0..times).for_each(|_| assert!(engine.run_lowest().is_ok()));
}

fn committed(engine: &mut Engine, time: u64) -> usize {
    engine.commit(time, &mut [0; 8 * 24]).unwrap().count()
}

fn record(engine: &Engine, station: u64) -> State {
    engine.record(station).unwrap()
}

#[test]
fn heard_at_time_0() {
    with_engine(0, |mut engine| {
        engine.post(0, 0, FRAME).unwrap();
        assert_eq!(record(&engine, 0).last, None);
        run(&mut engine, 1);
        assert_eq!(record(&engine, 0).last, None);
        assert_eq!(committed(&mut engine, 1), 1);
        assert_eq!(record(&engine, 0), State { draw: 16807, heard: 1, last: Some(0), ..State::default() });
        assert_eq!(record(&engine, 1), State { draw: 1, ..State::default() });
    });
}

#[test]
fn a_retract_restores_the_one_before() {
    with_engine(0, |mut engine| {
        engine.post(0, 20, FRAME).unwrap();
        engine.post(0, 50, FRAME).unwrap();
        run(&mut engine, 2);
        assert_eq!(committed(&mut engine, 21), 1);
        assert_eq!(record(&engine, 0).last, Some(20));
        assert_eq!(engine.retract(1).unwrap(), 1);
        assert_eq!(committed(&mut engine, 51), 0);
        assert_eq!(record(&engine, 0), State { draw: 16807, heard: 1, last: Some(20), ..State::default() });
    });
}

#[test]
fn a_late_one_is_not_the_last() {
    with_engine(0, |mut engine| {
        engine.post(0, 50, FRAME).unwrap();
        run(&mut engine, 1);
        assert_eq!(engine.post(0, 20, FRAME).unwrap().undone, 1);
        run(&mut engine, 2);
        assert_eq!(committed(&mut engine, 21), 1);
        assert_eq!(record(&engine, 0).last, Some(20));
        assert_eq!(committed(&mut engine, 51), 1);
        assert_eq!(record(&engine, 0), State { draw: 282475249, heard: 2, last: Some(50), ..State::default() });
    });
}

#[test]
fn a_lost_one_counts_when_its_repeat_is_heard() {
    with_engine(16807, |mut engine| {
        engine.post(0, 7, FRAME).unwrap();
        run(&mut engine, 1);
        assert_eq!(committed(&mut engine, 8), 1);
        assert_eq!(record(&engine, 0), State { draw: 16807, lost: 1, sent: 1, ..State::default() });
        run(&mut engine, 1);
        assert_eq!(committed(&mut engine, 38), 1);
        assert_eq!(record(&engine, 0), State { draw: 282475249, heard: 1, lost: 1, sent: 1, last: Some(37), ..State::default() });
    });
}

#[test]
fn one_given_up_does_not_count() {
    with_engine(16807, |mut engine| {
        engine.post(0, 7, Matter::Frame { origin: 0, repeats: 3 }).unwrap();
        run(&mut engine, 1);
        assert_eq!(committed(&mut engine, 8), 1);
        assert_eq!(record(&engine, 0), State { draw: 16807, lost: 1, ..State::default() });
    });
}

#[test]
fn each_station_on_the_way_has_its_own() {
    with_engine(0, |mut engine| {
        engine.post(1, 5, FRAME).unwrap();
        engine.post(1, 6, Matter::Level(9)).unwrap();
        engine.post(1, 8, Matter::Reading).unwrap();
        (0..3).for_each(|_| assert_eq!(engine.run_station(1).unwrap().undone, 0));
        assert_eq!(engine.run_station(0).unwrap().undone, 0);
        assert_eq!(committed(&mut engine, 36), 4);
        assert_eq!(record(&engine, 1), State { draw: 16807, level: 9, heard: 1, sent: 3, last: Some(5), ..State::default() });
        assert_eq!(record(&engine, 0), State { draw: 16807, heard: 1, last: Some(35), ..State::default() });
    });
}
