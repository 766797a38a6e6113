//! The battery account (document 02, change 1): the worked numbers, each refusal and what is taken beside it, the largest charge, and a line's hour.
use jambfennel::{Account, Engine, Entry, Matter, Plan, Refusal, HORIZON, POSTED};

#[path = "../examples/line.rs"]
mod line;

/// The log of the bench program's example: a posted reading, the frame that it sends, a level, and the next reading.
const BENCH: [[u8; 24]; 4] = [
    [0, 0, 0, 0, 0, 0, 0, 0, 0, 0, 0, 0, 0, 0, 0, 0, 1, 0, 0xFF, 0xFF, 1, 0, 0, 0],
    [30, 0, 0, 0, 0, 0, 0, 0, 1, 0, 0, 0, 1, 0, 0, 0, 0, 0, 1, 0, 2, 0, 0, 0],
    [0xF4, 1, 0, 0, 0, 0, 0, 0, 1, 0, 0, 0, 0x88, 0x13, 0, 0, 1, 0, 0xFF, 0xFF, 3, 0, 0, 0],
    [0xE8, 3, 0, 0, 0, 0, 0, 0, 0, 0, 0, 0, 0, 0, 0, 0, 1, 0, 1, 0, 1, 0, 0, 0],
];

/// A reading that is posted at station 1.
const READING: Entry = Entry { time: 0, target: 1, source: POSTED, number: 0, kind: 1, value: 0 };

fn bytes(entry: Entry) -> Vec<u8> {
    let Entry { time, target, source, number, kind, value } = entry;
    let mut bytes = time.to_le_bytes().to_vec();
    [number, value].iter().for_each(|word| bytes.extend(word.to_le_bytes()));
    [target, source].iter().for_each(|half| bytes.extend(half.to_le_bytes()));
    bytes.extend(kind.to_le_bytes());
    bytes
}

fn number<T>(answer: Result<T, Refusal>) -> Result<T, u64> {
    answer.map_err(|refusal| refusal.number)
}

fn charges(account: &Account) -> Vec<u64> {
    account.charges().collect()
}

#[test]
fn worked_numbers() {
    let log = BENCH.concat();
    assert_eq!(Account::bytes(2), 24);
    let mut buffer = [0xA5; Account::bytes(2)];
    let mut account = Account::open(2, 5, 7, &mut buffer).unwrap();
    assert_eq!((charges(&account), account.total()), (vec![0, 0], 0));
    account.read(&log).unwrap();
    assert_eq!((charges(&account), account.total()), (vec![7, 10], 17));
    account.read(&log).unwrap();
    assert_eq!((charges(&account), account.total()), (vec![14, 20], 34));
    // entry by entry, and by an account that goes on with the buffer
    let mut account = Account::resume(2, &mut buffer);
    BENCH.iter().for_each(|entry| account.read(entry).unwrap());
    assert_eq!((account.charge(0), account.charge(1), account.total()), (Ok(21), Ok(30), 51));
    // an opening starts from 0
    let account = Account::open(2, 1, 100, &mut buffer).unwrap();
    assert_eq!((charges(&account), account.total()), (vec![0, 0], 0));
}

/// Whether an account of two stations takes an entry: alone, after entries that are right and before them. A refusal changes no byte, an entry that is taken
/// is charged at its target, and no byte after the account changes.
fn taken(entry: Entry) -> bool {
    let mut buffer = vec![0xA5; Account::bytes(2) + 16];
    Account::open(2, 5, 7, &mut buffer).unwrap().read(&BENCH.concat()).unwrap();
    let answers = [(vec![], vec![]), (BENCH.concat(), vec![]), (vec![], BENCH.concat())].map(|(front, back)| {
        let before = buffer.clone();
        let mut account = Account::resume(2, &mut buffer);
        let mut expected = charges(&account);
        let answer = number(account.read(&[&front[..], &bytes(entry), &back].concat()));
        if answer.is_ok() {
            if front.len() + back.len() > 0 {
                expected[0] += 7;
                expected[1] += 10;
            }
            expected[entry.target as usize] += [5, 7, 0][entry.kind as usize - 1];
            assert_eq!(charges(&account), expected, "{entry:?}");
            assert_eq!((&buffer[..8], &buffer[24..]), (&before[..8], &[0xA5; 16][..]), "{entry:?}");
        } else {
            assert_eq!(buffer, before, "{entry:?}");
        }
        answer
    });
    assert!(answers == [Ok(()); 3] || answers == [Err(19); 3], "{entry:?}: {answers:?}");
    answers[0].is_ok()
}

#[test]
fn entries_out_of_range() {
    for target in [2, 3, 256, 65_534, 65_535] {
        assert!(!taken(Entry { target, ..READING }));
    }
    for source in [2, 3, 256, 65_534] {
        assert!(!taken(Entry { source, ..READING }));
    }
    for time in [HORIZON + 1, HORIZON + (1 << 32), 1 << 63, u64::MAX] {
        assert!(!taken(Entry { time, ..READING }));
    }
    for kind in [0, 4, 257, 65_537, u32::MAX] {
        assert!(!taken(Entry { kind, ..READING }));
    }
    for value in [1, 256, 65_536, u32::MAX] {
        assert!(!taken(Entry { value, ..READING }));
    }
    // frames with origin 2 and more, and with 4 repeats and more
    for value in [2, 255, 258, 770, 1023, 1024, 1025, 65_536, u32::MAX] {
        assert!(!taken(Entry { kind: 2, value, ..READING }));
    }
}

#[test]
fn entries_just_in_range() {
    for (target, source) in [(0, 0), (0, 1), (0, POSTED), (1, 0), (1, 1), (1, POSTED)] {
        assert!(taken(Entry { target, source, ..READING }));
    }
    assert!(taken(Entry { time: HORIZON, ..READING }));
    assert!(taken(Entry { number: u32::MAX, ..READING }));
    for value in [0, 1, 256, 257, 512, 513, 768, 769] {
        assert!(taken(Entry { kind: 2, value, ..READING }));
    }
    for value in [0, 1, 5_000, u32::MAX] {
        assert!(taken(Entry { kind: 3, value, ..READING }));
    }
}

#[test]
fn the_longest_line() {
    let mut buffer = [0xA5; Account::bytes(256)];
    let mut account = Account::open(256, 1, 1_000, &mut buffer).unwrap();
    let frame = |target, value| bytes(Entry { target, source: 255, kind: 2, value, ..READING });
    account.read(&[frame(255, 255), frame(254, 1023), bytes(Entry { target: 255, ..READING })].concat()).unwrap();
    for wrong in [frame(256, 0), frame(255, 1024), bytes(Entry { source: 256, ..READING })] {
        assert_eq!(number(account.read(&wrong)), Err(19));
    }
    assert_eq!(charges(&account)[..254], [0; 254]);
    assert_eq!((account.charge(254), account.charge(255), account.total()), (Ok(1_000), Ok(1_001), 2_001));
}

#[test]
fn lengths() {
    let log = BENCH.concat();
    let mut buffer = [0; Account::bytes(2)];
    let mut account = Account::open(2, 5, 7, &mut buffer).unwrap();
    for len in (0..=log.len()).filter(|len| len % 24 != 0) {
        assert_eq!(number(account.read(&log[..len])), Err(19), "{len} bytes");
    }
    account.read(&[]).unwrap();
    assert_eq!(charges(&account), [0, 0]);
    for (len, after) in [(24, [0, 5]), (48, [7, 10]), (72, [14, 15])] {
        account.read(&log[..len]).unwrap();
        assert_eq!(charges(&account), after);
    }
}

#[test]
fn stations_and_space() {
    let mut buffer = [0xA5; Account::bytes(256) + 8];
    for stations in [0, 257, 65_538, (1 << 32) + 2, u64::MAX] {
        assert_eq!(number(Account::open(stations, 5, 7, &mut buffer).map(|_| ())), Err(7));
        assert!(buffer.iter().all(|byte| *byte == 0xA5));
        // 7 comes before 19 and before 9
        let mut account = Account::resume(stations, &mut buffer);
        assert_eq!((number(account.read(&[0; 23])), number(account.charge(u64::MAX))), (Err(7), Err(7)));
        assert_eq!((charges(&account), account.total()), (vec![], 0));
    }
    for stations in [1, 2, 255, 256] {
        let enough = Account::bytes(stations);
        let [few, enough] = [enough - 1, enough].map(|len| {
            let mut account = Account::resume(stations as u64, &mut buffer[..len]);
            let read = number(account.read(&[0; 23]));
            let charge = number(account.charge(stations as u64));
            (read, charge, number(Account::open(stations as u64, 5, 7, &mut buffer[..len]).map(|_| ())))
        });
        assert_eq!(few, (Err(7), Err(7), Err(7)));
        assert_eq!(enough, (Err(19), Err(9), Ok(())));
        assert_eq!(charges(&Account::resume(stations as u64, &mut buffer)), vec![0; stations]);
        assert!(buffer[Account::bytes(stations)..].iter().all(|byte| *byte == 0xA5));
    }
    let account = Account::resume(2, &mut buffer);
    for station in [2, 3, 256, 65_536, 1 << 32, (1 << 32) + 1, u64::MAX] {
        assert_eq!(number(account.charge(station)), Err(9));
    }
}

#[test]
fn refusals_in_words() {
    let texts: Vec<String> = [7, 9, 19, 20].iter().map(|number| Refusal { number: *number, station: None }.to_string()).collect();
    assert!(texts[0].contains("stations") && texts[1].contains("station") && texts[2].contains("24 bytes") && texts[3].contains("64 bits"), "{texts:?}");
}

/// Of 4294967297 readings at 4294967295 units the last ones: their sum is 2^64 - 1.
#[test]
fn the_largest_charge() {
    let reading = bytes(READING);
    let mut buffer = [0; Account::bytes(2)];
    Account::open(2, u32::MAX, 1, &mut buffer).unwrap();
    // an account that has read all but two
    buffer[16..].copy_from_slice(&(u64::from(u32::MAX) * u64::from(u32::MAX)).to_le_bytes());
    let mut account = Account::resume(2, &mut buffer);
    assert_eq!(number(account.read(&reading.repeat(3))), Err(20));
    account.read(&reading.repeat(2)).unwrap();
    assert_eq!(charges(&account), [0, u64::MAX]);
    // one more unit there is too much, and takes nothing along
    let frame = |target| bytes(Entry { target, kind: 2, ..READING });
    for part in [reading.clone(), frame(1), [frame(0), frame(1)].concat()] {
        assert_eq!(number(account.read(&part)), Err(20));
        assert_eq!(charges(&account), [0, u64::MAX]);
    }
    // 19 comes before it
    assert_eq!(number(account.read(&[reading.clone(), vec![0; 24]].concat())), Err(19));
    // what costs nothing there is taken
    account.read(&[]).unwrap();
    account.read(&bytes(Entry { kind: 3, value: 1, ..READING })).unwrap();
    account.read(&frame(0)).unwrap();
    assert_eq!((charges(&account), account.total()), (vec![1, u64::MAX], 1 << 64));
}

/// The same without a shortcut: `make largest-charge`.
#[test]
#[ignore = "takes 20 seconds"]
fn the_largest_charge_reading_by_reading() {
    let part = bytes(Entry { target: 0, ..READING }).repeat(1_000_000);
    let mut buffer = [0; Account::bytes(1)];
    let mut account = Account::open(1, u32::MAX, 0, &mut buffer).unwrap();
    (0..4_294).for_each(|_| account.read(&part).unwrap());
    // 967297 are left
    assert_eq!(number(account.read(&part)), Err(20));
    assert_eq!(number(account.read(&part[..24 * 967_298])), Err(20));
    account.read(&part[..24 * 967_297]).unwrap();
    assert_eq!(charges(&account), [u64::MAX]);
    assert_eq!(number(account.read(&part[..24])), Err(20));
    account.read(&[]).unwrap();
    assert_eq!(charges(&account), [u64::MAX]);
}

#[test]
fn a_lines_hour() {
    let mut written = [0; Plan::bytes_for(3)];
    let plan = Plan::write(&line::stations(), &mut written).unwrap();
    let mut buffer = [0; Account::bytes(3)];
    let mut account = Account::open(3, 5, 7, &mut buffer).unwrap();
    let (entries, states) = line::hour(&plan, &mut account).unwrap();
    let mut counted = [0; 3];
    for entry in &entries {
        counted[usize::from(entry.target)] += match entry.matter().unwrap() {
            Matter::Reading => 5,
            Matter::Frame { .. } => 7,
            Matter::Level(_) => 0,
        };
    }
    assert_eq!(charges(&account), counted);
    // a frame that is run is heard or lost there
    let readings = |station| entries.iter().filter(|entry| entry.target == station && entry.kind == 1).count() as u64;
    for (station, state) in (0..).zip(&states) {
        assert_eq!(account.charge(station.into()).unwrap(), 5 * readings(station) + 7 * u64::from(state.heard + state.lost));
    }
    assert!(counted.iter().all(|units| *units > 0) && states[0].lost + states[1].lost > 0);
    // the whole log at once comes to the same
    let mut other = [0; Account::bytes(3)];
    let mut whole = Account::open(3, 5, 7, &mut other).unwrap();
    whole.read(&entries.iter().flat_map(|entry| bytes(*entry)).collect::<Vec<_>>()).unwrap();
    assert!(whole.charges().eq(account.charges()) && whole.total() == account.total());
}

/// The output of a commit has bytes after its log: these are none of an entry, and the log alone is taken.
#[test]
fn a_log_and_its_output() {
    let mut written = [0; Plan::bytes_for(3)];
    let plan = Plan::write(&line::stations(), &mut written).unwrap();
    let mut buffer = vec![0; Engine::bytes(16, 3, 8)];
    let mut engine = Engine::open(&plan, 16, 64, 8, &mut buffer).unwrap();
    engine.post(2, 10, Matter::Reading).unwrap();
    engine.run_lowest().unwrap();
    let mut lent = [0; Account::bytes(3)];
    let mut account = Account::open(3, 5, 7, &mut lent).unwrap();
    let mut output = [0; 8 * 24];
    let log = engine.commit(11, &mut output).unwrap();
    assert_eq!(log.len(), 1);
    account.read(&log).unwrap();
    account.read(log.bytes()).unwrap();
    assert_eq!(number(account.read(&output)), Err(19));
    assert_eq!(charges(&account), [0, 0, 10]);
}
