//! A line of three stations for an hour: how many frames arrive at the collector, and what charge each station needs.
use jambfennel::{Account, Config, Engine, Entry, Matter, Plan, Refusal, State, Station};

/// What is posted: the station, the time and the matter. The water rises after half an hour.
pub const POSTS: [(u64, u64, Matter); 3] = [(1, 0, Matter::Reading), (2, 0, Matter::Reading), (2, 1_800_000, Matter::Level(6_000))];

pub fn stations() -> [Station; 3] {
    let numbers = |parent, seed| Config { parent, calm: 300_000, spring: 60_000, threshold: 5_000, hop: 250, noise: 107_374_182, seed };
    [Station::new(numbers(0, 1), b"collector"), Station::new(numbers(0, 2), b"crest"), Station::new(numbers(1, 3), b"toe")]
}

/// The line's hour, minute by minute, charged to an account: its log, and the stations' states at its end.
pub fn hour(plan: &Plan, account: &mut Account) -> Result<(Vec<Entry>, Vec<State>), Refusal> {
    // arity 16, leaf width 64, 64 held events at most
    let mut buffer = vec![0; Engine::bytes(16, plan.count(), 64)];
    let mut engine = Engine::open(plan, 16, 64, 64, &mut buffer)?;
    for (station, time, matter) in POSTS {
        engine.post(station, time, matter)?;
    }
    let mut output = [0; 64 * 24];
    let mut entries = vec![];
    for minute in 1..=60 {
        // run until all before the minute has run
        let log = loop {
            match engine.commit(60_000 * minute, &mut output) {
                Ok(log) => break log,
                Err(Refusal { number: 15, .. }) => engine.run_lowest()?,
                Err(refusal) => return Err(refusal),
            };
        };
        account.read(&log)?;
        entries.extend(log);
    }
    let states = (0..plan.count() as u64).map(|station| engine.record(station)).collect::<Result<_, _>>()?;
    Ok((entries, states))
}

#[allow(dead_code)]
fn main() -> Result<(), Refusal> {
    let mut bytes = [0; Plan::bytes_for(3)];
    let plan = Plan::write(&stations(), &mut bytes)?;
    // a reading costs 2 units, a frame 15
    let mut charges = [0; Account::bytes(3)];
    let mut account = Account::open(3, 2, 15, &mut charges)?;
    let (entries, states) = hour(&plan, &mut account)?;
    for (station, state) in (0..).zip(states) {
        let last = state.last.map_or("never reached".into(), |time| format!("last reached at {time} ms"));
        let (name, charge) = (String::from_utf8_lossy(plan.name(station)?), account.charge(station)?);
        println!("{name}: {} heard, {} lost, {} sent, {last}, {charge} units", state.heard, state.lost, state.sent);
    }
    println!("{} events, {} units", entries.len(), account.total());
    Ok(())
}
