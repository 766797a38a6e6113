//! A run to a time against the same line run by hand and against the plain machine of `reference`; and how it ends where it does not come to the time.
use jambfennel::{Engine, Matter, Next, Plan, Refusal, State, Until};

#[path = "../examples/line.rs"]
mod line;
#[path = "../reference/mod.rs"]
mod reference;

const DAY: u64 = 86_400_000;

/// The example's line, opened with so many places.
fn with_line(capacity: u64, calls: impl FnOnce(Plan, Engine)) {
    let mut bytes = [0; Plan::bytes_for(3)];
    let plan = Plan::write(&line::stations(), &mut bytes).unwrap();
    let mut buffer = vec![0xA5; Engine::bytes(16, 3, capacity as usize)];
    let engine = Engine::open(&plan, 16, 64, capacity, &mut buffer).unwrap();
    calls(plan, engine)
}

/// The readings of the two stations that send.
fn read_on(engine: &mut Engine) {
    for station in 1..3 {
        engine.post(station, 0, Matter::Reading).unwrap();
    }
}

fn records(engine: &Engine) -> Vec<State> {
    (0..3).map(|station| engine.record(station).unwrap()).collect()
}

fn refused(number: u64) -> Refusal {
    Refusal { number, station: None }
}

/// The records at each hour of a day, with a post at each hour's start: from runs to a time, from run lowest and commit, and from the plain machine.
#[test]
fn a_day_is_the_plain_machines() {
    let posts: Vec<(u64, u64, u32)> = (0..24).map(|hour| (1 + hour % 2, 3_600_000 * hour, 4_000 + 250 * hour as u32)).collect();
    let level = |engine: &mut Engine, (station, time, mm)| engine.post(station, time, Matter::Level(mm)).unwrap();
    let (mut by_until, mut by_hand, mut by_machine) = (vec![], vec![], vec![]);
    with_line(64, |_, mut engine| {
        read_on(&mut engine);
        for &post in &posts {
            level(&mut engine, post);
            assert_eq!(engine.run_until(post.1 + 3_600_000, 100, &mut [0; 64 * 24]), Ok(Until::Done));
            assert!(engine.next().unwrap().time >= post.1 + 3_600_000);
            by_until.push(records(&engine));
        }
    });
    with_line(64, |plan, mut engine| {
        read_on(&mut engine);
        for &post in &posts {
            level(&mut engine, post);
            while engine.next().is_ok_and(|next| next.time < post.1 + 3_600_000) {
                let Next { station, time } = engine.next().unwrap();
                engine.commit(time, &mut [0; 64 * 24]).unwrap();
                assert_eq!(engine.run_lowest().unwrap().station, station);
            }
            engine.commit(post.1 + 3_600_000, &mut [0; 64 * 24]).unwrap();
            by_hand.push(records(&engine));
        }

        let configs: Vec<_> = reference::read_plan(plan.bytes()).unwrap().into_iter().map(|(config, _)| config).collect();
        let mut machine = reference::Machine::new(&configs);
        (1..3).for_each(|station| machine.post((0, station, 65_535, station - 1), (1, 0)));
        for (number, &(station, time, mm)) in (2..).zip(&posts) {
            machine.post((time, station, 65_535, number), (3, mm.into()));
        }
        for &(_, time, _) in &posts {
            machine.run(time + 3_600_000, |_, _| ());
            by_machine.push(machine.states.iter().map(as_state).collect::<Vec<_>>());
        }
    });
    assert_eq!(by_until, by_hand);
    assert_eq!(by_until, by_machine);
    assert!(by_until[23][0].heard > by_until[22][0].heard);
}

fn as_state(s: &reference::State) -> State {
    State { draw: s.draw as u32, level: s.level as u32, heard: s.heard as u32, lost: s.lost as u32, sent: s.sent as u32, last: s.last }
}

/// The turns of one run to a time may be made in several.
#[test]
fn unfinished_goes_on() {
    let mut whole = vec![];
    with_line(64, |_, mut engine| {
        engine.post(1, 0, Matter::Reading).unwrap();
        assert_eq!(engine.run_until(30 * DAY, 0, &mut []), Ok(Until::Unfinished));
        assert_eq!(engine.run_until(30 * DAY, u64::MAX, &mut [0; 64 * 24]), Ok(Until::Done));
        whole = records(&engine);
    });
    with_line(64, |_, mut engine| {
        engine.post(1, 0, Matter::Reading).unwrap();
        let mut calls = 1;
        while engine.run_until(30 * DAY, 1, &mut [0; 64 * 24]).unwrap() == Until::Unfinished {
            calls += 1;
        }
        assert!(calls > 30);
        assert_eq!(records(&engine), whole);
    });
}

/// With two places and two events at one time no run has room for what it sends.
#[test]
fn busy_at_a_time() {
    with_line(2, |_, mut engine| {
        engine.post(1, 700, Matter::Reading).unwrap();
        engine.post(2, 700, Matter::Reading).unwrap();
        assert_eq!(engine.next(), Ok(Next { station: 1, time: 700 }));
        assert_eq!(engine.run_until(DAY, 10, &mut [0; 48]), Ok(Until::Busy { time: 700 }));
        // a level sends nothing, and there is no place for it
        assert_eq!(engine.post(2, 800, Matter::Level(1)), Err(refused(17)));
        // 700 is the commit time
        assert_eq!(engine.commit(699, &mut []).unwrap_err(), refused(12));
        assert_eq!(engine.run_until(700, 10, &mut [0; 48]), Ok(Until::Done));
    });
}

#[test]
fn refused_for_the_time_or_the_output() {
    with_line(64, |_, mut engine| {
        assert_eq!(engine.next(), Err(refused(14)));
        assert_eq!(engine.run_until(DAY, 1, &mut []), Ok(Until::Done));
        assert_eq!(engine.run_until(DAY - 1, 1, &mut []), Err(refused(12)));
        assert_eq!(engine.run_until(jambfennel::HORIZON + 2, 1, &mut []), Err(refused(11)));
        engine.post(1, DAY, Matter::Reading).unwrap();
        assert_eq!(engine.run_until(DAY + 1, 10, &mut [0; 23]), Err(refused(18)));
        assert_eq!(engine.run_until(DAY + 1, 10, &mut [0; 24]), Ok(Until::Done));
    });
}
