// The calendar against std's BTreeSet, both doing the same cycle in one run, at arity 16; before that, both on random calls, call by call, and the calendar on
// damaged buffers, at all four arities. `make benchmark-calendar` builds and runs it; an argument is the number of rounds (default 20).
use std::collections::BTreeSet;
use std::hint::black_box;
use std::time::Instant;

#[path = "../rust/reference/mod.rs"]
mod reference;
use reference::{Calendar as Model, Dice, Lowest};

#[link(name = "exports", kind = "static")]
extern "C" {
    fn calendar_open(n: u64, arity: u64, width: u64, b: *mut u8, len: usize) -> u64;
    fn calendar_register(b: *mut u8, len: usize, station: u64, time: u64) -> u64;
    fn calendar_unregister(b: *mut u8, len: usize, station: u64) -> u64;
    fn calendar_lowest(b: *const u8, len: usize, at: *mut [u64; 3]) -> u64;
    fn calendar_extract(b: *mut u8, len: usize, at: *mut [u64; 3]) -> u64;
    fn calendar_advance(b: *mut u8, len: usize, floor: u64) -> u64;
}

const ARITIES: [u64; 4] = [8, 16, 32, 64];

fn bytes(arity: u64, n: u64) -> usize {
    (128 * arity * arity + 64 * n) as usize
}

// ---- the calendar, safely: each call has the buffer whole

fn done(code: u64) -> Result<(), u64> {
    if code == 0 { Ok(()) } else { Err(code) }
}
fn open(n: u64, arity: u64, width: u64, b: &mut [u8]) -> Result<(), u64> {
    done(unsafe { calendar_open(n, arity, width, b.as_mut_ptr(), b.len()) })
}
fn register(b: &mut [u8], s: u64, t: u64) -> Result<(), u64> {
    done(unsafe { calendar_register(b.as_mut_ptr(), b.len(), s, t) })
}
fn unregister(b: &mut [u8], s: u64) -> Result<(), u64> {
    done(unsafe { calendar_unregister(b.as_mut_ptr(), b.len(), s) })
}
fn lowest(b: &[u8]) -> Lowest {
    let mut at = [0; 3];
    let code = unsafe { calendar_lowest(b.as_ptr(), b.len(), &mut at) };
    done(code).map(|_| (at[0], at[1], at[2]))
}
fn extract(b: &mut [u8]) -> Lowest {
    let mut at = [0; 3];
    let code = unsafe { calendar_extract(b.as_mut_ptr(), b.len(), &mut at) };
    done(code).map(|_| (at[0], at[1], at[2]))
}
fn advance(b: &mut [u8], floor: u64) -> Result<(), u64> {
    done(unsafe { calendar_advance(b.as_mut_ptr(), b.len(), floor) })
}

// Six widths and reaches at each arity: the spans are some rings long, or less than a block.
fn same_answers(r: &mut Dice) {
    let mut b = vec![0xa5u8; bytes(64, 256)];
    let mut refused = [0u64; 16];
    for arity in ARITIES {
        let block = arity * arity;
        for (n, w, span) in [(256, 64, 1_563 * block), (7, 1, 35 * block), (256, 1, block + block / 4), (32, 1_048_576, 1 << 38), (40, 3, 78 * block), (1, 64, 4096 * block)] {
            assert_eq!(open(n, arity, w, &mut b), Ok(()));
            let mut m = Model::open(n, arity, w);
            for _ in 0..50_000 {
                let s = r.below(n + 1);
                let t = (m.floor + r.below(span)).saturating_sub(r.below(5));
                let (said, expected) = match r.below(8) {
                    0..=2 => (register(&mut b, s, t), m.register(s, t)),
                    3 => (unregister(&mut b, s), m.unregister(s)),
                    4 | 5 => {
                        let (x, y) = (extract(&mut b), m.extract());
                        assert_eq!(x, y);
                        (x.map(|_| ()), y.map(|_| ()))
                    }
                    _ => {
                        let low = m.set.first().map_or(m.floor + r.below(span / 8 + 1), |x| x.0);
                        let f = [low, m.floor + r.below(span / 64 + 1), m.floor.saturating_sub(1) + r.below(3)][r.below(3) as usize];
                        (advance(&mut b, f), m.advance(f))
                    }
                };
                assert_eq!(said, expected);
                refused[said.err().unwrap_or(0) as usize] += 1;
                assert_eq!(lowest(&b), m.lowest());
            }
        }
    }
    println!("1200000 calls answered alike; refused by number: {:?}", refused.iter().enumerate().skip(1).filter(|x| *x.1 > 0).collect::<Vec<_>>());
}

// Of any bytes no more than 17 words are read.
fn bounded(answer: Lowest) -> Result<(), u64> {
    answer.map(|(_, _, words)| assert!(words <= 17, "more than 17 words read"))
}

// Buffers of random bytes, and calendars with some bytes changed, that of the shape among them: a call ends, writes nothing outside, and a refusal changes nothing.
fn damaged_buffers(r: &mut Dice) {
    let guard = 4096;
    let (mut refused, mut done) = (0, 0);
    for arity in ARITIES {
        let most = bytes(arity, 256);
        let mut z = vec![0xeeu8; most + 2 * guard];
        for round in 0..5_000u64 {
            let len = [0, 40, 7_700, most / 3, most, most][(round % 6) as usize];
            let b = &mut z[guard..guard + len];
            if round % 4 == 0 || len < most {
                b.chunks_mut(4).for_each(|x| x.copy_from_slice(&r.below(1 << 32).to_le_bytes()[..x.len()]));
            } else {
                assert_eq!(open(1 + r.below(256), arity, 1 + r.below(100), b), Ok(()));
                for _ in 0..100 {
                    let _ = register(b, r.below(256), r.below(2000 * arity * arity));
                }
                // the cells end before 4584 + 128 a + 32 a a
                for _ in 0..1 + r.below(30) {
                    let k = r.below(4584 + 128 * arity + 32 * arity * arity) as usize;
                    b[k] = r.below(256) as u8;
                }
                if r.one_in(2) {
                    b[56 + r.below(8) as usize] = r.below(256) as u8;
                }
            }
            for _ in 0..20 {
                let before = b.to_vec();
                let said = match r.below(5) {
                    0 => register(b, r.below(300), r.below(600_000)),
                    1 => unregister(b, r.below(300)),
                    2 => bounded(extract(b)),
                    3 => advance(b, r.below(600_000)),
                    _ => bounded(lowest(b)),
                };
                if said.is_ok() {
                    done += 1;
                } else {
                    refused += 1;
                    assert!(before == b, "a refusal changed the buffer");
                }
            }
            b.fill(0xee);
            assert!(z.iter().all(|&x| x == 0xee), "a call wrote outside its buffer");
        }
    }
    println!("{} calls on damaged buffers: {} accepted, {} refused", done + refused, done, refused);
}

// ---- the cycle: lowest, extract, register later; the floor follows every 64 cycles

const CYCLES: usize = 200_000;

fn steps(r: &mut Dice, most: u64) -> Vec<u64> {
    (0..65536).map(|_| 1 + r.below(most)).collect()
}

fn calendar_cycle(b: &mut [u8], n: u64, w: u64, d: &[u64]) -> f64 {
    assert_eq!(open(n, 16, w, b), Ok(()));
    for s in 0..n {
        assert_eq!(register(b, s, d[s as usize]), Ok(()));
    }
    let start = Instant::now();
    let mut sum = 0;
    for i in 0..CYCLES {
        sum ^= black_box(lowest(b)).unwrap().0;
        let (t, s, _) = extract(b).unwrap();
        if i % 64 == 0 {
            let _ = advance(b, t);
        }
        let _ = register(b, s, t + d[i % 65536]);
    }
    black_box(sum);
    start.elapsed().as_nanos() as f64 / CYCLES as f64
}

fn set_cycle(n: u64, d: &[u64]) -> f64 {
    let mut set: BTreeSet<(u64, u64)> = (0..n).map(|s| (d[s as usize], s)).collect();
    let start = Instant::now();
    let mut sum = 0;
    for i in 0..CYCLES {
        sum ^= black_box(set.first()).unwrap().0;
        let (t, s) = set.pop_first().unwrap();
        set.insert((t + d[i % 65536], s));
    }
    black_box(sum);
    start.elapsed().as_nanos() as f64 / CYCLES as f64
}

fn row(b: &mut [u8], r: &mut Dice, rounds: usize, what: &str, n: u64, w: u64, most: u64) {
    let d = steps(r, most);
    let (mut ours, mut theirs) = (Vec::new(), Vec::new());
    for _ in 0..rounds {
        ours.push(calendar_cycle(b, n, w, &d));
        theirs.push(set_cycle(n, &d));
    }
    ours.sort_by(|x, y| x.total_cmp(y));
    theirs.sort_by(|x, y| x.total_cmp(y));
    let (o, t) = (ours[rounds / 2], theirs[rounds / 2]);
    println!("| {what} | {n} | {w} | {most} | {o:.1} | {:.1} | {t:.1} | {:.2} |", ours[0], o / t);
}

fn main() {
    let rounds = std::env::args().nth(1).and_then(|x| x.parse().ok()).unwrap_or(20);
    let mut r = Dice(88172645463325252);
    same_answers(&mut r);
    damaged_buffers(&mut r);
    let mut b = vec![0u8; bytes(16, 256)];
    println!("\nns per cycle of lowest + extract + register, floor advanced every 64 cycles; median of {rounds} rounds of {CYCLES} cycles\n");
    println!("| case | stations | leaf width | step up to ms | calendar | calendar, best | BTreeSet | ratio |");
    println!("|---|---|---|---|---|---|---|---|");
    for n in [2, 16, 32, 64, 128, 256] {
        row(&mut b, &mut r, rounds, "stations", n, 64, 50 * n.max(40));
    }
    for w in [1, 4, 16, 64, 256, 1024, 4096, 65536] {
        row(&mut b, &mut r, rounds, "leaf width", 256, w, 2000);
    }
    for most in [10_000, 100_000, 600_000] {
        row(&mut b, &mut r, rounds, "far times", 256, 64, most);
    }
    row(&mut b, &mut r, rounds, "all in the overflow", 256, 1, 10_000_000);
    row(&mut b, &mut r, rounds, "all in one leaf", 256, 1_048_576, 2000);
}
