//! All small command lists (document 02, change 12): the listing against one made by counting, and every list on the engine against the simple one and against the
//! lines that the gate's program prints.
use jambfennel::small_lists::{self, Answer, Call, List};
use jambfennel::{Engine, Matter, Plan, Refusal};
use std::collections::BTreeMap;

#[allow(dead_code)]
#[path = "../reference/mod.rs"]
mod reference;

/// The lists by counting: of one length, the last call changes fastest.
fn counted() -> Vec<Vec<usize>> {
    (0..4u32).flat_map(|length| (0..7usize.pow(length)).map(move |n| (0..length).rev().map(|place| n / 7usize.pow(place) % 7).collect())).collect()
}

fn four_bytes(list: &[usize]) -> [u8; 4] {
    let mut bytes = [list.len() as u8, 7, 7, 7];
    bytes[1..].iter_mut().zip(list).for_each(|(byte, call)| *byte = *call as u8);
    bytes
}

/// An answer as the bench prints it, its lines with a stroke between two, and the bitmap words that a run lowest read.
type Told = (String, u64);

fn told(said: Result<Answer, Refusal>) -> Told {
    let words = if let Ok(Answer::Run(run)) = &said { run.words } else { 0 };
    let text = match said {
        Ok(Answer::Run(run)) => format!("run {} {}", run.station, run.undone),
        Ok(Answer::RunStation(run)) => format!("run {} {}", run.station, run.undone),
        Ok(Answer::Post(post)) => format!("post {} {}", post.number, post.undone),
        Ok(Answer::Retract(undone)) => format!("retract {undone}"),
        Ok(Answer::Commit(log)) => {
            let count = format!("commit {}", log.len());
            let lines = log.map(|e| format!("{} {} {} {} {} {}", e.time, e.target, e.kind, e.source, e.number, e.value));
            lines.chain([count]).collect::<Vec<_>>().join(" / ")
        }
        Err(refusal) => format!("no {}", refusal.number),
    };
    (text, words)
}

/// What the simple engine answers.
fn expected(simple: &mut reference::Engine, call: Call) -> Told {
    let said = match call {
        Call::Run => simple.run_lowest().map(|(station, undone, words)| (format!("run {station} {undone}"), words)),
        Call::RunStation(station) => simple.run(station).map(|(station, undone)| (format!("run {station} {undone}"), 0)),
        Call::Post { station, time, matter } => {
            assert_eq!(matter, Matter::Reading);
            simple.post(station, time, 1, 0).map(|(number, undone)| (format!("post {number} {undone}"), 0))
        }
        Call::Retract(number) => simple.retract(number).map(|undone| (format!("retract {undone}"), 0)),
        Call::Commit(time) => simple.commit(time, 1536).map(|log| {
            let count = format!("commit {}", log.len());
            let lines = log.iter().map(|(key, matter)| format!("{} {} {} {} {} {}", key.0, key.1, matter.0, key.2, key.3, matter.1));
            (lines.chain([count]).collect::<Vec<_>>().join(" / "), 0)
        }),
    };
    said.unwrap_or_else(|number| (format!("no {number}"), 0))
}

#[test]
fn the_listing_is_every_list_in_order() {
    let lists: Vec<List> = small_lists::lists().collect();
    assert_eq!((lists.len(), small_lists::lists().len()), (400, 400));
    for (list, counted) in lists.iter().zip(counted()) {
        assert_eq!(list.bytes(), four_bytes(&counted));
        assert!(list.calls().eq(counted.iter().map(|call| small_lists::CALLS[*call])));
    }
}

#[test]
fn outputs_of_every_length() {
    let listing: Vec<u8> = counted().iter().flat_map(|list| four_bytes(list)).collect();
    assert_eq!((listing.len(), listing.iter().map(|byte| u64::from(*byte)).sum::<u64>()), (1600, 4998));
    for length in 0..1700 {
        let mut output = [0xA5; 1700];
        let said = small_lists::write(&mut output[..length]);
        let written = if length < 1600 { 0 } else { 1600 };
        assert_eq!(said, if length < 1600 { Err(Refusal { number: 18, station: None }) } else { Ok(()) });
        assert_eq!(output[..written], listing[..written]);
        assert!(output[written..].iter().all(|byte| *byte == 0xA5));
    }
}

#[test]
fn every_list_on_the_engine() {
    let mut bytes = [0; Plan::bytes_for(2)];
    let plan = Plan::write(&small_lists::stations(), &mut bytes).unwrap();
    let line: Vec<_> = reference::read_plan(plan.bytes()).unwrap().into_iter().map(|(config, _)| config).collect();
    // one buffer for all: an opening does not depend on what it held
    let mut buffer = [0xA5; Engine::bytes(16, 2, 64)];
    let (mut lines, mut counts) = (String::new(), BTreeMap::new());
    for list in small_lists::lists() {
        let mut engine = Engine::open(&plan, 16, 64, 64, &mut buffer).unwrap();
        let mut simple = reference::Engine::open(&line, 16, 64, 64);
        lines += &list.bytes().map(|byte| byte.to_string()).join(" ");
        for call in list.calls() {
            let mut output = [0; 1536];
            let said = told(call.make(&mut engine, &mut output));
            assert_eq!(said, expected(&mut simple, call), "{list:?}");
            lines += &format!(" | {call}: {}", said.0);
            let last = said.0.rsplit(" / ").next().unwrap();
            *counts.entry(if last.starts_with("no") { last } else { last.split(' ').next().unwrap() }.to_string()).or_insert(0) += 1;
        }
        lines += "\n";
    }
    let counts: Vec<(&str, i32)> = counts.iter().map(|(name, count)| (name.as_str(), *count)).collect();
    assert_eq!(counts, [("commit", 128), ("no 12", 38), ("no 13", 126), ("no 14", 410), ("no 15", 34), ("post", 286), ("retract", 36), ("run", 76)]);
    assert_eq!(lines, include_str!("../../crates/small_lists_run/stdout"));
}
