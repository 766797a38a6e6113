//! The example's hour against the plain machine of `reference`, event by event, and the stations' states at its end.
use jambfennel::{Account, Entry, Matter, Plan, State};

#[path = "../examples/line.rs"]
mod line;
#[path = "../reference/mod.rs"]
mod reference;

fn numbers(matter: Matter) -> reference::Matter {
    match matter {
        Matter::Reading => (1, 0),
        Matter::Frame { origin, repeats } => (2, u64::from(origin) + 256 * u64::from(repeats)),
        Matter::Level(mm) => (3, mm.into()),
    }
}

#[test]
fn an_hour_is_the_plain_machines() {
    let mut bytes = [0; Plan::bytes_for(3)];
    let plan = Plan::write(&line::stations(), &mut bytes).unwrap();
    let mut charges = [0; Account::bytes(3)];
    let (entries, states) = line::hour(&plan, &mut Account::open(3, 1, 1, &mut charges).unwrap()).unwrap();

    let configs: Vec<_> = reference::read_plan(plan.bytes()).unwrap().into_iter().map(|(config, _)| config).collect();
    let mut machine = reference::Machine::new(&configs);
    for (number, (station, time, matter)) in (0..).zip(line::POSTS) {
        machine.post((time, station, 65_535, number), numbers(matter));
    }
    let mut expected = vec![];
    machine.run(3_600_000, |key, matter| expected.push(Entry::of(&reference::entry(key, matter))));

    assert_eq!(entries, expected);
    assert!(entries.iter().all(|entry| entry.matter().map(numbers) == Some((entry.kind.into(), entry.value.into()))));
    let as_state = |s: &reference::State| State {
        draw: s.draw as u32,
        level: s.level as u32,
        heard: s.heard as u32,
        lost: s.lost as u32,
        sent: s.sent as u32,
        last: s.last,
    };
    assert_eq!(states, machine.states.iter().map(as_state).collect::<Vec<_>>());
    assert!(states[0].heard > 0 && states[0].lost + states[1].lost > 0);
    assert!(states[0].last > states[1].last && states[1].last.is_some() && states[2].last.is_none());
}
