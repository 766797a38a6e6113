//! The engine against a plain machine on std's BinaryHeap that writes the same log, both in one run.
//!
//!     make benchmark [ROUNDS=9]
//!     make benchmark-widths [ROUNDS=9]
//!     make benchmark-shapes [ROUNDS=9]
//!     make benchmark-account [ROUNDS=9]
//!
//! Every figure is nanoseconds a committed event, the median of the rounds; in each round every machine of a row takes its turn, and a ratio is the median of the
//! rounds' ratios. The engine runs lowest in batches of 32 events and commits at every whole interval of simulated time that it can. The heap steps to the same times
//! and writes the same 24 bytes an event. Where Debian's libns3-dev and python3-simpy are installed, the same line on ns-3's core and on SimPy has a column (benchmarks/line_ns3.cc, line_simpy.py).
use jambfennel::{Account, Calendar, Engine, Entry, Matter, ARITIES};
use std::cmp::Reverse;
use std::collections::BinaryHeap;
use std::hint::black_box;
use std::process::Command;
use std::time::Instant;

#[path = "../../reference/mod.rs"]
mod reference;
use reference::{Config, Dice, Machine};

/// A line of n stations whose parents are `fan` to one, of which the last `readers` read every five minutes, committed every `interval` ms.
#[derive(Clone, Copy)]
struct Work {
    n: u64,
    fan: u64,
    noise: u32,
    readers: u64,
    interval: u64,
}

const MINUTE: u64 = 60_000;
const PERIOD: u64 = 300_000;
/// The arity of every table but that of the shapes.
const ARITY: u64 = 16;
/// One frame in twenty.
const NOISE: u32 = 107_374_182;

impl Work {
    fn line(&self) -> Vec<Config> {
        (0..self.n)
            .map(|s| Config {
                parent: (s.saturating_sub(1) / self.fan) as u16,
                calm: PERIOD as u32,
                spring: MINUTE as u32,
                threshold: 5_000,
                hop: 250 + (s % 50) as u32,
                noise: self.noise,
                seed: 1_000 + 7 * s as u32,
            })
            .collect()
    }

    fn posts(&self) -> impl Iterator<Item = (u64, u64)> + '_ {
        (0..self.readers).map(|k| (self.n - 1 - k, k * PERIOD / self.readers))
    }
}

/// Committed events and the nanoseconds that they took; with them the late posts, as station and time.
#[derive(Clone, Default)]
struct Took {
    events: u64,
    ns: u64,
    undone: u64,
    ran: u64,
    words: u64,
    late: Vec<(u64, u64)>,
}

impl Took {
    fn each(&self) -> f64 {
        self.ns as f64 / self.events.max(1) as f64
    }

    /// Bitmap words read a run lowest.
    fn words_each(&self) -> f64 {
        self.words as f64 / self.ran.max(1) as f64
    }
}

/// The engine; late posts undo `percent` of the events that are run.
fn engine(work: &Work, capacity: u64, arity: u64, width: u64, percent: u64, events: u64) -> Option<Took> {
    let line = work.line();
    let mut buffer = vec![0; Engine::bytes(arity, line.len(), capacity as usize)];
    let mut output = vec![0; 24 * capacity as usize];
    let mut engine = Engine::open(&reference::plan_bytes(&line), arity, width, capacity, &mut buffer).ok()?;
    for (station, time) in work.posts() {
        engine.post(station, time, Matter::Reading).ok()?;
    }
    let mut dice = Dice(7);
    let (mut took, mut time) = (Took::default(), work.interval);
    let start = Instant::now();
    while took.events < events {
        let mut stuck = true;
        for _ in 0..32 {
            match engine.run_lowest() {
                Ok(run) => {
                    took.ran += 1;
                    took.undone += run.undone;
                    took.words += run.words;
                    stuck = false;
                }
                Err(_) => break,
            }
        }
        if 100 * took.undone < percent * took.ran {
            let at = time - work.interval + dice.below(work.interval);
            let station = work.n - 1 - dice.below(work.readers.min(8));
            if let Ok(post) = engine.post(station, at, Matter::Level(1)) {
                took.undone += post.undone;
                took.late.push((station, at));
            }
        }
        while let Ok(log) = engine.commit(time, &mut output) {
            took.events += log.len() as u64;
            black_box(log.bytes());
            time += work.interval;
            stuck = false;
            if took.events >= events {
                break;
            }
        }
        if stuck {
            return None;
        }
    }
    took.ns = start.elapsed().as_nanos() as u64;
    Some(took)
}

/// The heap; it is given the engine's late posts before it starts.
fn heap(work: &Work, late: &[(u64, u64)], events: u64) -> Took {
    let line = work.line();
    let mut machine = Machine::new(&line);
    for (k, (station, time)) in work.posts().enumerate() {
        machine.post((time, station, 65_535, k as u64), (1, 0));
    }
    for (k, &(station, time)) in late.iter().enumerate() {
        machine.post((time, station, 65_535, work.readers + k as u64), (3, 1));
    }
    let mut output = Vec::with_capacity(24 * 100_000);
    let (mut took, mut time) = (Took::default(), work.interval);
    let start = Instant::now();
    while took.events < events {
        output.clear();
        machine.run(time, |key, matter| output.extend_from_slice(&reference::entry(key, matter)));
        took.events += output.len() as u64 / 24;
        black_box(&output);
        time += work.interval;
    }
    took.ns = start.elapsed().as_nanos() as u64;
    took
}

/// Another simulator, as a program that takes the work as numbers and prints how many events ran and the nanoseconds of each.
fn other(program: &str, script: Option<&str>, work: &Work, events: u64) -> Option<f64> {
    let numbers = [work.n, work.fan, work.noise.into(), work.readers, events].map(|x| x.to_string());
    let output = Command::new(program).args(script).args(numbers).output().ok()?;
    String::from_utf8(output.stdout).ok()?.split_whitespace().nth(1)?.parse().ok()
}

/// The calendar alone: lowest, extract and register a cycle.
fn calendar(n: u64, arity: u64, width: u64, cycles: u64) -> f64 {
    let mut buffer = vec![0; Calendar::bytes(arity, n as usize)];
    let mut calendar = Calendar::open(n, arity, width, &mut buffer).unwrap();
    let mut dice = Dice(11);
    for s in 0..n {
        calendar.register(s, dice.below(PERIOD)).unwrap();
    }
    let start = Instant::now();
    for k in 0..cycles {
        let first = calendar.extract().unwrap();
        calendar.register(first.station, first.time + 250 + dice.below(PERIOD)).unwrap();
        if k % 64 == 0 {
            calendar.advance(calendar.lowest().unwrap().time).unwrap();
        }
    }
    start.elapsed().as_nanos() as f64 / cycles as f64
}

/// The same cycle on a heap of times and stations.
fn times(n: u64, cycles: u64) -> f64 {
    let mut heap = BinaryHeap::new();
    let mut dice = Dice(11);
    for s in 0..n {
        heap.push(Reverse((dice.below(PERIOD), s)));
    }
    let start = Instant::now();
    for _ in 0..cycles {
        let Reverse((time, station)) = heap.pop().unwrap();
        heap.push(Reverse((time + 250 + dice.below(PERIOD), station)));
    }
    black_box(&heap);
    start.elapsed().as_nanos() as f64 / cycles as f64
}

/// The nanoseconds of one machine, a number for each round.
#[derive(Clone, Default)]
struct Rounds(Vec<f64>);

impl Rounds {
    fn median(&self) -> Option<f64> {
        let mut sorted = self.0.clone();
        sorted.sort_by(f64::total_cmp);
        sorted.get(sorted.len() / 2).copied()
    }

    fn least(&self) -> Option<f64> {
        self.0.iter().copied().min_by(f64::total_cmp)
    }

    fn cell(&self) -> String {
        cell(self.median())
    }

    /// The median over the rounds of the ratio within a round: what slows the computer for a while slows both.
    fn ratio(&self, base: &Rounds) -> String {
        if self.0.len() != base.0.len() {
            return "-".into();
        }
        let ratios = Rounds(self.0.iter().zip(&base.0).map(|(x, y)| x / y).collect());
        ratios.median().map_or("-".into(), |x| format!("{x:.2}"))
    }

    /// The ratio of the two best rounds.
    fn least_ratio(&self, base: &Rounds) -> String {
        self.least().zip(base.least()).map_or("-".into(), |(x, y)| format!("{:.2}", x / y))
    }
}

/// In each round every machine takes its turn.
fn rounds_of<const N: usize>(rounds: usize, mut turn: impl FnMut(usize) -> Option<f64>) -> [Rounds; N] {
    let mut all: [Rounds; N] = std::array::from_fn(|_| Rounds::default());
    for _ in 0..rounds {
        for (k, column) in all.iter_mut().enumerate() {
            column.0.extend(turn(k));
        }
    }
    all
}

fn cell(x: Option<f64>) -> String {
    x.map_or("-".into(), |x| format!("{x:.0}"))
}

/// The lines of 256 stations that all read, with noise: a tree of 4 and a chain.
const LONG: [(&str, Work); 2] = [
    ("tree of 4", Work { n: 256, fan: 4, noise: NOISE, readers: 255, interval: MINUTE }),
    ("chain", Work { n: 256, fan: 1, noise: NOISE, readers: 255, interval: 7_500 }),
];

/// One line alone, for a profiler: `valgrind --tool=callgrind benchmark profile engine 50000`, or heap, or calendar. Another arity than 16 may follow.
fn profile(which: &str, events: u64, arity: u64) {
    let work = LONG[0].1;
    let took = match which {
        "heap" => heap(&work, &[], events),
        "calendar" => return println!("{events} cycles, {:.0} ns each", calendar(work.n, arity, 64, events)),
        _ => engine(&work, 4096, arity, 64, 0, events).unwrap(),
    };
    println!("{} events, {:.0} ns each", took.events, took.each());
}

/// The bitmap words read a run lowest and the nanoseconds an event, for each of N columns in turn.
fn read_and_took<const N: usize>(rounds: usize, turn: impl Fn(usize) -> Option<Took>) -> String {
    let mut read = [None; N];
    let row: [Rounds; N] = rounds_of(rounds, |k| {
        let took = turn(k)?;
        read[k] = Some(took.words_each());
        Some(took.each())
    });
    let cells: Vec<String> = row.iter().zip(read).map(|(took, read)| format!("{} | {}", read.map_or("-".into(), |x| format!("{x:.2}")), took.cell())).collect();
    cells.join(" | ")
}

/// What a leaf width is chosen by: the bitmap words read a run lowest, and the nanoseconds an event.
fn widths(rounds: usize) {
    println!("| 256 stations, capacity 4096, noise 5 % | tree of 4: words read | ns an event | chain: words read | ns an event |\n|---|---|---|---|---|");
    for width in (0..7).map(|k| 4u64.pow(k)) {
        println!("| w {width} | {} |", read_and_took::<2>(rounds, |k| engine(&LONG[k].1, 4096, ARITY, width, 0, 200_000)));
    }
}

/// What an arity is chosen by: the same at the four of them, on long lines; then lines of other lengths, and the calendar alone.
fn shapes(rounds: usize) {
    for (shape, work) in LONG {
        println!("| {shape}, 256 stations, capacity 4096, noise 5 % | arity 8: words read | ns an event | 16: words read | ns | 32: words read | ns | 64: words read | ns |");
        println!("|---|---|---|---|---|---|---|---|---|");
        for width in (0..7).map(|k| 4u64.pow(k)) {
            println!("| w {width} | {} |", read_and_took::<4>(rounds, |k| engine(&work, 4096, ARITIES[k], width, 0, 200_000)));
        }
        println!();
    }
    println!("| tree of 4, w 64, noise 5 % | capacity | bytes at arity 8 | ns an event | 16: bytes | ns | 32: bytes | ns | 64: bytes | ns | 8 / 16 | 64 / 16 |");
    println!("|---|---|---|---|---|---|---|---|---|---|---|---|");
    for (n, readers, capacity, interval) in [(2, 1, 16, PERIOD), (4, 3, 16, MINUTE), (16, 15, 64, 30_000), (64, 63, 512, MINUTE), (256, 255, 4096, MINUTE)] {
        let work = Work { n, fan: 4, noise: NOISE, readers, interval };
        let row: [Rounds; 4] = rounds_of(rounds, |k| engine(&work, capacity, ARITIES[k], 64, 0, 200_000).map(|t| t.each()));
        let cells: Vec<String> = row.iter().zip(ARITIES).map(|(took, arity)| format!("{} | {}", Engine::bytes(arity, n as usize, capacity as usize), took.cell())).collect();
        println!("| {n} stations, {readers} reading | {capacity} | {} | {} | {} |", cells.join(" | "), row[0].ratio(&row[1]), row[3].ratio(&row[1]));
    }
    println!("\n| calendar alone, extract and register | w | arity 8 | 16 | 32 | 64 | heap | 8 / 16 | 64 / 16 |\n|---|---|---|---|---|---|---|---|---|");
    for n in [2, 16, 64, 256] {
        for width in [1, 64, 4096] {
            let row: [Rounds; 5] = rounds_of(rounds, |k| Some(if k < 4 { calendar(n, ARITIES[k], width, 200_000) } else { times(n, 200_000) }));
            let cells: Vec<String> = row.iter().map(Rounds::cell).collect();
            println!("| {n} stations | {width} | {} | {} | {} |", cells.join(" | "), row[0].ratio(&row[1]), row[3].ratio(&row[1]));
        }
    }
}

/// A log of so many events: of ten, three readings, six frames and a level.
fn log(n: u64, events: usize) -> Vec<u8> {
    let mut dice = Dice(7);
    let mut part = vec![];
    for time in 0..events as u64 {
        let (station, from) = (dice.below(n), dice.below(n));
        let (source, matter) = match dice.below(10) {
            0..=2 => (station, (1, 0)),
            3..=8 => (from, (2, dice.below(n) + 256 * dice.below(4))),
            _ => (65_535, (3, dice.below(10_000))),
        };
        part.extend(reference::entry((time, station, source, time), matter));
    }
    part
}

/// A plain account: one pass over the entries, and the charges copied where all is well.
fn plain(part: &[u8], n: u64, costs: [u64; 2], charges: &mut [u64]) -> Option<()> {
    let entries = part.chunks_exact(24);
    if !entries.remainder().is_empty() {
        return None;
    }
    let mut next = [0; 256];
    next[..n as usize].copy_from_slice(charges);
    let mut passed = false;
    for entry in entries {
        let entry = Entry::of(entry.try_into().unwrap());
        let (target, source, value) = (u64::from(entry.target), u64::from(entry.source), u64::from(entry.value));
        if entry.time > reference::H || target >= n || (source >= n && source != 65_535) || !reference::suits(n, (entry.kind.into(), value)) {
            return None;
        }
        let charge = &mut next[target as usize];
        let (sum, over) = charge.overflowing_add(match entry.kind {
            1 => costs[0],
            2 => costs[1],
            _ => 0,
        });
        *charge = sum;
        passed |= over;
    }
    if passed {
        return None;
    }
    charges.copy_from_slice(&next[..n as usize]);
    Some(())
}

/// The account against a plain one: nanoseconds an entry, by how many a part has.
fn accounts(rounds: usize) {
    println!("| stations | entries a part | account | plain | account / plain |\n|---|---|---|---|---|");
    for n in [16, 256] {
        for entries in [4, 64, 4096] {
            let part = log(n, entries);
            let mut buffer = vec![0; Account::bytes(n as usize)];
            let mut account = Account::open(n, 5, 7, &mut buffer).unwrap();
            let mut charges = vec![0; n as usize];
            let turns = 1_000_000 / entries;
            let [a, b] = rounds_of(rounds, |k| {
                let start = Instant::now();
                for _ in 0..turns {
                    if k == 0 { account.read(black_box(&part)).ok() } else { plain(black_box(&part), n, [5, 7], &mut charges) }.expect("taken");
                }
                Some(start.elapsed().as_nanos() as f64 / (turns * entries) as f64)
            });
            assert!(account.charges().eq(charges.iter().copied()));
            let cell = |x: &Rounds| x.median().map_or("-".into(), |x| format!("{x:.1}"));
            println!("| {n} | {entries} | {} | {} | {} |", cell(&a), cell(&b), a.ratio(&b));
        }
    }
}

fn main() {
    let words: Vec<String> = std::env::args().collect();
    if let [_, chosen, rest @ ..] = &words[..] {
        let rounds = || rest.first().map_or(9, |a| a.parse().expect("a number of rounds"));
        match chosen.as_str() {
            "widths" => return widths(rounds()),
            "shapes" => return shapes(rounds()),
            "accounts" => return accounts(rounds()),
            _ => {}
        }
    }
    if let [_, profiled, which, events, arity @ ..] = &words[..] {
        assert_eq!(profiled, "profile");
        return profile(which, events.parse().expect("a number of events"), arity.first().map_or(ARITY, |a| a.parse().expect("an arity")));
    }
    let rounds = std::env::args().nth(1).map_or(9, |a| a.parse().expect("a number of rounds"));
    let events = 200_000;
    println!("| stations | shape | noise | capacity | interval | readers | engine | heap | engine / heap |\n|---|---|---|---|---|---|---|---|---|");
    for n in [16, 64, 256] {
        for (shape, fan) in [("chain", 1), ("tree of 4", 4)] {
            for (share, noise) in [("0", 0), ("5 %", NOISE)] {
                for capacity in [64, 512, 4096] {
                    // what is run between two commits has to fit: fewer readers for few places, shorter intervals for long ways
                    let hops = if fan == 1 { n } else { 4 };
                    let readers = (n - 1).min(capacity / 4);
                    let mut interval = MINUTE;
                    while interval > 100 && readers * hops * interval / PERIOD > capacity / 4 {
                        interval /= 2;
                    }
                    let work = Work { n, fan, noise, readers, interval };
                    let [a, b] = rounds_of(rounds, |k| if k == 0 { engine(&work, capacity, ARITY, 64, 0, events).map(|t| t.each()) } else { Some(heap(&work, &[], events).each()) });
                    println!("| {n} | {shape} | {share} | {capacity} | {interval} | {readers} | {} | {} | {} |", a.cell(), b.cell(), a.ratio(&b));
                }
            }
        }
    }
    println!("\n| one line at | capacity 64 | 512 | 4096 | 4096 / 64 |\n|---|---|---|---|---|");
    for (n, fan, shape) in [(2, 1, "2 stations"), (16, 4, "16, tree of 4"), (32, 4, "32, tree of 4"), (64, 4, "64, tree of 4"), (256, 4, "256, tree of 4"), (16, 1, "16, chain")] {
        let readers = 15.min(n - 1);
        let work = Work { n, fan, noise: NOISE, readers, interval: 30_000 };
        let [a, b, c] = rounds_of(rounds, |k| engine(&work, [64, 512, 4096][k], ARITY, 64, 0, events).map(|t| t.each()));
        println!("| {shape}, {readers} reading | {} | {} | {} | {} |", a.cell(), b.cell(), c.cell(), c.ratio(&a));
    }
    // from 16 to 256 stations, the same readers
    let lines = [(16, 4), (256, 4), (16, 1), (256, 1)].map(|(n, fan)| Work { n, fan, noise: NOISE, readers: 15, interval: 15_000 });
    let row: [Rounds; 4] = rounds_of(rounds, |k| engine(&lines[k], 4096, ARITY, 64, 0, events).map(|t| t.each()));
    println!("\n| 15 reading, capacity 4096 | 16 stations | 256 stations | 256 / 16 |\n|---|---|---|---|");
    println!("| tree of 4 | {} | {} | {} |", row[0].cell(), row[1].cell(), row[1].ratio(&row[0]));
    println!("| chain | {} | {} | {} |", row[2].cell(), row[3].cell(), row[3].ratio(&row[2]));
    println!("\n| 256 stations, capacity 4096, noise 5 % | w 1 | 4 | 16 | 64 | 256 | 1024 | 4096 | heap | ns-3 | SimPy | best / heap | best rounds | best / ns-3 |");
    println!("|---|---|---|---|---|---|---|---|---|---|---|---|---|---|");
    for (shape, work) in LONG {
        let row: [Rounds; 10] = rounds_of(rounds, |k| match k {
            7 => Some(heap(&work, &[], events).each()),
            8 => other("../target/benchmark-ns3", None, &work, events),
            9 => other("/usr/bin/python3", Some("../benchmarks/line_simpy.py"), &work, events / 20),
            _ => engine(&work, 4096, ARITY, 4u64.pow(k as u32), 0, events).map(|t| t.each()),
        });
        let [.., heap, ns3, _] = &row;
        let best = row[..7].iter().filter(|r| r.median().is_some()).min_by(|x, y| x.median().partial_cmp(&y.median()).unwrap()).cloned().unwrap_or_default();
        let cells: Vec<String> = row.iter().map(Rounds::cell).collect();
        println!("| {shape} | {} | {} | {} | {} |", cells.join(" | "), best.ratio(heap), best.least_ratio(heap), best.ratio(ns3));
    }
    println!("\n| late posts, 256 stations, capacity 4096 | none | undo 1 % | undo 10 % | heap, none late | heap, those of 10 % in time | 10 % / heap |\n|---|---|---|---|---|---|---|");
    for (shape, work) in LONG {
        let mut late = vec![];
        let [a, b, c, d, e] = rounds_of(rounds, |k| match k {
            3 => Some(heap(&work, &[], events).each()),
            4 => Some(heap(&work, &late, events).each()),
            _ => engine(&work, 4096, ARITY, 64, [0, 1, 10][k], events).map(|took| {
                late = took.late.clone();
                took.each()
            }),
        });
        println!("| {shape} | {} | {} | {} | {} | {} | {} |", a.cell(), b.cell(), c.cell(), d.cell(), e.cell(), c.ratio(&e));
    }
    println!("\n| calendar alone, extract and register | w 1 | 64 | 4096 | heap | 64 / heap |\n|---|---|---|---|---|---|");
    for n in [16, 64, 256] {
        let [a, b, c, d] = rounds_of(rounds, |k| Some(if k < 3 { calendar(n, ARITY, [1, 64, 4096][k], 1_000_000) } else { times(n, 1_000_000) }));
        println!("| {n} stations | {} | {} | {} | {} | {} |", a.cell(), b.cell(), c.cell(), d.cell(), b.ratio(&d));
    }
}
