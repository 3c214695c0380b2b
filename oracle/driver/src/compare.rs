//! Comparing the original with another side on every generated case, counting what was covered, and reducing what
//! differs to its smallest input.

use crate::generate::{Generator, EVERY_THREE_BYTES, GENERATORS};
use crate::lines::handed_by_rule;
use crate::model::{Case, Data, Event, Memory, Observed, Outcome, Place};
use crate::original::Original;
use crate::sample::generator_rng;
use crate::{direct, log};
use std::collections::BTreeMap;
use std::thread;

/// The side that is compared with the original.
pub type Side = fn(&Case) -> Observed;

/// How a case is run on the original: with or without the further exchanges that show the timing.
type Run = fn(&mut Original, &Case) -> Observed;

/// The names of the fields in which the other side differs from the original. What the original cannot show is judged by
/// document 01's rule (the data that it does not hand out) or left out (each number of the timing above T). README.md lists
/// these.
pub fn differences(case: &Case, original: &Observed, other: &Observed) -> Vec<&'static str> {
    let mut fields = Vec::new();
    let mut field = |name, same: bool| {
        if !same {
            fields.push(name);
        }
    };
    let same_outcome = match (&original.outcome, &other.outcome) {
        (Outcome::Positive(Data::NotHandedOut), Outcome::Positive(Data::Bytes(data))) => {
            data == handed_by_rule(case, original)
        }
        (one, another) => one == another,
    };
    let overall = case.setting.overall.map_or(u64::MAX, u64::from);
    let shown = |timing: (u64, u64)| (timing.0.min(overall), timing.1.min(overall));
    field("request bytes", original.request == other.request);
    field("outcome", same_outcome);
    field("finishing time", original.time == other.time);
    field("events read", original.events == other.events);
    field("notices", original.notices == other.notices);
    field("number", original.number == other.number);
    field(
        "session timing",
        shown(original.timing) == shown(other.timing),
    );
    field("place of the data", well_placed(case, other));
    fields
}

/// Handed-out data is a part of the reply that settled the exchange: it stands within it, up to its end or before.
fn well_placed(case: &Case, other: &Observed) -> bool {
    let (Some(Place { at, length }), Outcome::Positive(Data::Bytes(data))) =
        (other.place, &other.outcome)
    else {
        return true;
    };
    let Some(event) = case.events.get(other.events.wrapping_sub(1)) else {
        return false;
    };
    let (from, to) = (
        event.offset as usize,
        event.offset as usize + event.length as usize,
    );
    length == 0
        || (from <= at && at + length <= to && case.replies.get(at..at + length) == Some(data))
}

/// What a run covered.
#[derive(Default)]
pub struct Tally {
    pub cases: usize,
    pub failed: usize,
    no_counterpart: usize,
    by_generator: Vec<(&'static str, usize)>,
    by_outcome: BTreeMap<(&'static str, u8), usize>,
    by_call: [usize; 16],
    strict: usize,
    suppressing: usize,
    not_handed_out: usize,
    timing_cut_by_overall: usize,
    timing_changed: usize,
}

impl Tally {
    fn count(&mut self, case: &Case, observed: &Observed) {
        self.cases += 1;
        let outcome = &observed.outcome;
        *self
            .by_outcome
            .entry((outcome.word(), outcome.number()))
            .or_default() += 1;
        self.by_call[case.call.number() as usize] += 1;
        self.strict += case.setting.strict as usize;
        self.suppressing += case.suppressing() as usize;
        self.not_handed_out += (*outcome == Outcome::Positive(Data::NotHandedOut)) as usize;
        let overall = case.setting.overall.map_or(u64::MAX, u64::from);
        let before = (case.setting.p2.into(), case.setting.p2_star.into());
        let shown: (u64, u64) = (overall.min(before.0), overall.min(before.1));
        self.timing_cut_by_overall += (shown != before) as usize;
        self.timing_changed += (shown != observed.timing) as usize;
    }

    fn print(&self) {
        println!("\nBy generator:");
        for (name, count) in &self.by_generator {
            println!("  {count:>10}  {name}");
        }
        println!("By outcome (of the original):");
        for ((word, number), count) in &self.by_outcome {
            match number {
                0 => println!("  {count:>10}  {word}"),
                _ => println!("  {count:>10}  {word} {number}"),
            }
        }
        println!("By call:");
        for (call, count) in self.by_call.iter().enumerate() {
            println!("  {count:>10}  call {call}");
        }
        println!(
            "{} strict, {} lenient; {} with bit 7 set, {} without.",
            self.strict,
            self.cases - self.strict,
            self.suppressing,
            self.cases - self.suppressing
        );
        println!(
            "Session timing: {} cases changed it; in {} T hides P2 or P2* beyond T.",
            self.timing_changed, self.timing_cut_by_overall
        );
        println!(
            "Data of calls 6, 11 and 12, which the original does not hand out and document 01's rule judges: {} cases.",
            self.not_handed_out
        );
        println!(
            "Call 15, of which the exchange is the original's and the checks behind a positive are document 02's: {} cases.",
            self.by_call[15]
        );
        println!(
            "Besides, without counterpart in the original and judged by document 01's rules (refusals 8 and 10): {}.",
            self.no_counterpart
        );
    }
}

/// Whether the original has what the case asks: it has no refusals 8 to 10.
pub fn has_counterpart(case: &Case) -> bool {
    !matches!(direct::refusal(case, 4095), Some(8..=10))
}

/// What is right: what the original does, and where it has no counterpart what document 01 says.
pub fn judged(original: &mut Original, case: &Case, run: Run) -> Observed {
    if has_counterpart(case) {
        run(original, case)
    } else {
        direct::run(case)
    }
}

/// How many mismatches are reduced and printed; the rest are counted.
pub const SHOWN: usize = 10;

/// Runs the original and a side on the cases of generators.
fn compare_on(generators: &[Generator], seed: u64, side: Side, run: Run) -> Tally {
    let mut original = Original::default();
    let mut tally = Tally::default();
    for (at, generator) in generators.iter().enumerate() {
        let before = tally.cases;
        (generator.run)(&mut generator_rng(seed, at), &mut |case| {
            let right = judged(&mut original, case, run);
            let other = side(case);
            if has_counterpart(case) {
                tally.count(case, &right);
            } else {
                tally.no_counterpart += 1;
            }
            let fields = differences(case, &right, &other);
            if !fields.is_empty() {
                tally.failed += 1;
                if tally.failed <= SHOWN {
                    let least = smallest(case, &mut |case| {
                        let right = judged(&mut original, case, run);
                        differences(case, &right, &side(case)) == fields
                    });
                    println!("Mismatch in {}: {}", generator.name, fields.join(", "));
                    show(&least, &judged(&mut original, &least, run), &side(&least));
                }
            }
        });
        tally
            .by_generator
            .push((generator.name, tally.cases - before));
    }
    tally
}

/// Prints a case, what is right for it and what the other side did with it.
pub fn show(case: &Case, right: &Observed, other: &Observed) {
    println!("  {case:x?}");
    if let Some(log) = log::write(case) {
        let hex: String = log.iter().map(|byte| format!("{byte:02x}")).collect();
        println!("  log      {hex}");
    }
    println!("  right    {right:x?}");
    println!("  other    {other:x?}");
}

/// The smallest case for which `wrong` still holds, by steps that each make it smaller.
pub fn smallest(case: &Case, wrong: &mut dyn FnMut(&Case) -> bool) -> Case {
    let mut least = case.clone();
    while let Some(smaller) = smaller(&least).into_iter().find(|case| wrong(case)) {
        least = smaller;
    }
    least
}

/// Cases that are each a step smaller.
fn smaller(case: &Case) -> Vec<Case> {
    let mut cases = Vec::new();
    let mut with = |change: &mut dyn FnMut(&mut Case)| {
        let mut copy = case.clone();
        change(&mut copy);
        if copy != *case {
            cases.push(copy);
        }
    };
    for at in 0..case.events.len() {
        with(&mut |case| {
            case.events.remove(at);
        });
    }
    with(&mut pack);
    with(&mut |case| case.setting.overall = None);
    with(&mut |case| case.setting.limit = None);
    with(&mut |case| case.setting.quiet = false);
    with(&mut |case| case.setting.server_timing = false);
    with(&mut |case| case.setting.p2 /= 2);
    with(&mut |case| case.setting.p2_star /= 2);
    with(&mut |case| case.setting.p2 = case.setting.p2.saturating_sub(1));
    with(&mut |case| case.setting.p2_star = case.setting.p2_star.saturating_sub(1));
    with(&mut |case| case.setting.overall = case.setting.overall.map(|overall| overall / 2));
    with(&mut |case| {
        case.setting.overall = case
            .setting
            .overall
            .map(|overall| overall.saturating_sub(1))
    });
    for at in 0..case.events.len() {
        let earliest = if at == 0 { 0 } else { case.events[at - 1].time };
        let time = case.events[at].time;
        for new in [earliest, (earliest + time) / 2, time.saturating_sub(1)] {
            if (earliest..time).contains(&new) {
                with(&mut |case| case.events[at].time = new);
            }
        }
        if case.events[at].length > 0 {
            with(&mut |case| case.events[at].length /= 2);
            with(&mut |case| case.events[at].length -= 1);
        }
    }
    for at in 0..case.replies.len().min(64) {
        with(&mut |case| case.replies[at] = 0);
    }
    with(&mut |case| {
        if let Some(data) = case.call.optional_data_mut() {
            *data = None;
        }
    });
    with(&mut |case| {
        if let Some(data) = case.call.data_mut() {
            data.truncate(data.len() / 2);
        }
    });
    with(&mut |case| {
        if let Some(data) = case.call.data_mut() {
            data.pop();
        }
    });
    with(&mut |case| {
        if let Some(Memory::Bytes { address, .. }) = case.call.memory_mut() {
            address.pop();
        }
    });
    with(&mut |case| {
        if let Some(Memory::Bytes { size, .. }) = case.call.memory_mut() {
            size.remove(0);
        }
    });
    cases
}

/// Leaves only the reply bytes that events name. A list that breaks a limit stays.
fn pack(case: &mut Case) {
    if !direct::sound_events(&case.events, &case.replies) {
        return;
    }
    let mut packed = Case::new(case.call.clone(), case.setting);
    for &Event {
        time,
        kind,
        offset,
        length,
        source,
    } in &case.events
    {
        if kind == 0 {
            packed.reply_from(
                source,
                time,
                &case.replies[offset as usize..offset as usize + length as usize],
            );
        } else {
            packed.event(time, kind, length);
        }
    }
    *case = packed;
}

/// The command: all generators, and with `full` the long one too, its halves at once. (That one leaves the timing
/// unobserved: a reply of three bytes sets none, and the shorter run has all of two.)
pub fn compare(side: Side, seed: u64, full: bool) -> Result<usize, String> {
    let mut tallies = vec![compare_on(&GENERATORS, seed, side, Original::run)];
    if full {
        let halves = EVERY_THREE_BYTES.map(|half| {
            thread::spawn(move || compare_on(&[half], seed, side, Original::run_alone))
        });
        for half in halves {
            tallies.push(
                half.join()
                    .map_err(|_| "A half of the long run ended early.")?,
            );
        }
    }
    tallies.iter().for_each(Tally::print);
    let cases: usize = tallies.iter().map(|tally| tally.cases).sum();
    let failed: usize = tallies.iter().map(|tally| tally.failed).sum();
    println!("{} passed, {failed} failed", cases - failed);
    Ok(failed)
}
