//! The runs of `steps.txt`, each step with its answer, through the engine. They were made from document 02's request Eleven and its
//! readings (`docs/DECISIONS.md`), by a program that was written from these and not from this project's code.
//!
//! `log HEX K` begins a run: the log gives the call, T, the address listened to and the reply bytes, and K is a limit of notices or
//! `none`. Then come `begin = REFUSAL STATE`, `event TIME KIND OFFSET LENGTH SOURCE = REFUSAL STATE` and `tick NOW = REFUSAL STATE`.
//! STATE is `-` until the engine has settled, and from then on the line that `udslog` would print.

mod logs;

use bintrochis::{Engine, Event, LONGEST_REQUEST};
use logs::{line, recorded, Recorded};
use std::collections::BTreeMap;

const STEPS: &str = include_str!("steps.txt");

fn from_hex(hex: &str) -> Vec<u8> {
    let byte = |at| u8::from_str_radix(&hex[at..at + 2], 16).expect("hex");
    (0..hex.len()).step_by(2).map(byte).collect()
}

/// What an engine says after a step: its refusal, and the decision's line, or `-`.
fn said(engine: &Engine, refusal: u8, replies: &[u8]) -> String {
    let state = match engine.settled(replies) {
        None => "-".to_string(),
        Some(answer) => line(&answer),
    };
    format!("{refusal} {state}")
}

/// Runs the steps of one log; the number of steps, counted by what is said.
fn run(steps: &[&str], counts: &mut BTreeMap<String, usize>) {
    let words: Vec<&str> = steps[0].split(' ').collect();
    let limit = match words[2] {
        "none" => None,
        limit => Some(limit.parse().expect("a limit")),
    };
    let log = from_hex(words[1]);
    let Recorded {
        asked,
        session,
        replies,
        ..
    } = recorded(&log, limit);
    let mut buffer = [0; LONGEST_REQUEST];
    let mut engine = asked.begin(session, &mut buffer);
    for step in &steps[1..] {
        let (given, wanted) = step.split_once(" = ").expect("a step and what it says");
        let words: Vec<&str> = given.split(' ').collect();
        let number = |at: usize| words[at].parse::<u64>().expect("a number");
        let before = engine.clone();
        let result = match words[0] {
            "begin" => Ok(engine.settled(replies)),
            "tick" => engine.tick(number(1)),
            "event" => {
                let event = Event {
                    time: number(1) as u32,
                    kind: number(2) as u16,
                    offset: number(3) as u16,
                    length: number(4) as u16,
                    source: number(5) as u16,
                };
                engine.event(event, replies)
            }
            other => panic!("{other}"),
        };
        let refusal = result.map_or_else(|refusal| refusal.number(), |_| 0);
        assert_eq!(
            said(&engine, refusal, replies),
            wanted,
            "{given} of {}",
            steps[0]
        );
        match result {
            Ok(answer) => assert_eq!(answer, engine.settled(replies), "{given}"),
            Err(_) => assert_eq!(engine, before, "{given}"),
        }
        *counts.entry(format!("{} {refusal}", words[0])).or_default() += 1;
    }
}

#[test]
fn every_run_of_the_list() {
    let lines: Vec<&str> = STEPS.lines().collect();
    let starts = |line: &&str| line.starts_with("log ");
    let mut counts = BTreeMap::new();
    let mut runs = 0;
    for at in (0..lines.len()).filter(|&at| starts(&lines[at])) {
        let rest = lines[at + 1..].iter().position(&starts);
        let end = rest.map_or(lines.len(), |count| at + 1 + count);
        run(&lines[at..end], &mut counts);
        runs += 1;
    }
    let counts: Vec<(&str, usize)> = counts.iter().map(|(name, &n)| (&name[..], n)).collect();
    let wanted = [
        ("begin 0", 200),
        ("event 0", 455),
        ("event 10", 111),
        ("event 20", 28),
        ("event 21", 565),
        ("tick 0", 147),
        ("tick 20", 3),
        ("tick 21", 668),
    ];
    assert_eq!((runs, &counts[..]), (200, &wanted[..]));
}
