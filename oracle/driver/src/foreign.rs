//! Document 02's addresses, which the original does not have. It gets the events left once foreign replies are dropped, and
//! all that it does with these is right for the whole list, but for the count of events read: this is higher by the foreign
//! replies among the events counted.

use crate::compare::{differences, has_counterpart, show, smallest, Side, SHOWN};
use crate::generate::{self, GENERATORS};
use crate::limited::{self, Unlimited};
use crate::model::{Call, Case, Event, Observed, Outcome, Setting, END, ERROR, IDLE};
use crate::original::Original;
use crate::rng::Rng;
use crate::sample::generator_rng;
use crate::{direct, lines, log};
use std::collections::BTreeMap;

/// How many cases of waiting there are beside the generators', and how many for the faults.
const WAITING: usize = 200_000;
const FOR_FAULTS: usize = 20_000;

/// What the original does with the events left, and without T.
struct Left {
    observed: Observed,
    without_overall: Observed,
}

impl Left {
    fn of(original: &mut Original, left: &Case) -> Left {
        let mut run = |case: &Case, alone: bool| match case.setting.limit {
            _ if !has_counterpart(case) => direct::run(case),
            Some(_) => limited::right(case, &Unlimited::of(original, case)),
            None if alone => original.run_alone(case),
            None => original.run(case),
        };
        let observed = run(left, false);
        let mut without_overall = observed.clone();
        if left.setting.overall.is_some() {
            let mut left = left.clone();
            left.setting.overall = None;
            without_overall = run(&left, true);
        }
        Left {
            observed,
            without_overall,
        }
    }

    /// What is right for the whole list. Where it breaks a limit that what is left keeps, it is document 01's refusal.
    fn right(&self, case: &Case) -> Observed {
        if !has_counterpart(case) {
            return direct::run(case);
        }
        let mut right = self.observed.clone();
        if !matches!(right.outcome, Outcome::Refused(_)) {
            right.events = self.counted(case);
        }
        right
    }

    /// Read are the events up to the one that settled the call, or in silence those up to the deadline; counted under a
    /// timeout at T are those up to T.
    fn counted(&self, case: &Case) -> usize {
        let Observed {
            outcome,
            time,
            events,
            ..
        } = &self.without_overall;
        let silent = matches!(outcome, Outcome::Timeout | Outcome::Suppressed);
        let up_to = |time: u64| move |event: &&Event| u64::from(event.time) <= time;
        let read = if silent {
            case.events.iter().take_while(up_to(*time)).count()
        } else {
            let mut ours = (0..case.events.len()).filter(|&at| !case.is_foreign(&case.events[at]));
            ours.nth(events - 1).expect("it was read") + 1
        };
        match case.setting.overall {
            Some(overall) if *time > overall.into() => {
                let counted = case.events[..read].iter().filter(up_to(overall.into()));
                counted.count()
            }
            _ => read,
        }
    }
}

/// What is right for a case, whether or not its events have addresses.
pub fn right(original: &mut Original, case: &Case) -> Observed {
    Left::of(original, &case.left()).right(case)
}

/// Visits a case in which all replies come from the address listened to, and the same with foreign replies, each with what
/// is right, under a limit once in a while.
fn with_addresses(
    original: &mut Original,
    rng: &mut Rng,
    case: &Case,
    visit: &mut dyn FnMut(&mut Original, &Case, &Observed),
) {
    let mut ours = generate::addressed(rng, case);
    if rng.once_in(4) {
        ours.setting.limit = Some(rng.pick(&[0, 1, 2, 255]));
    }
    let mut left = Left::of(original, &ours);
    visit(original, &ours, &left.right(&ours));
    let mixed = generate::mixed(rng, &ours);
    if !has_counterpart(&ours) {
        // A reply that lay outside the reply bytes may lie inside now.
        left = Left::of(original, &mixed.left());
    }
    visit(original, &mixed, &left.right(&mixed));
}

/// The numbers that choose the addresses and the foreign replies of a generator's cases.
fn address_rng(seed: u64, generator: usize) -> Rng {
    generator_rng(seed, GENERATORS.len() + 1 + generator)
}

/// Cases of waiting with addresses, without and with foreign replies, each with what is right.
pub fn judged_cases(seed: u64) -> Vec<(Case, Observed)> {
    let mut original = Original::default();
    let mut cases = Vec::new();
    let mut rng = address_rng(seed, 0);
    let mut draw = generator_rng(seed, GENERATORS.len());
    generate::waiting(&mut draw, FOR_FAULTS, &mut |case| {
        with_addresses(&mut original, &mut rng, case, &mut |_, case, right| {
            cases.push((case.clone(), right.clone()));
        });
    });
    cases
}

/// What foreign replies look like.
const LOOKS: [&str; 6] = [
    "empty",
    "7F alone",
    "a notice",
    "another 7F",
    "the positive SID first",
    "anything else",
];

fn look(case: &Case, event: &Event) -> usize {
    let sid = case.call.sid();
    match case.replies[event.offset as usize..][..event.length as usize] {
        [] => 0,
        [0x7f] => 1,
        [0x7f, second, 0x78] if second == sid => 2,
        [0x7f, ..] => 3,
        [first, ..] if first == sid | 0x40 => 4,
        _ => 5,
    }
}

/// What a run covered.
#[derive(Default)]
struct Tally {
    cases: usize,
    failed: usize,
    by_outcome: BTreeMap<&'static str, usize>,
    /// Answers by how many foreign replies were counted; the last is for all larger numbers.
    by_counted: [usize; 4],
    /// Foreign replies counted, by what they look like.
    by_look: [usize; LOOKS.len()],
    /// Answers with a foreign reply counted.
    by_call: [usize; 16],
    by_mode: BTreeMap<(bool, bool, bool, bool), usize>,
    at_the_end: usize,
    not_read: usize,
    cut: usize,
    hushed: usize,
    limited: usize,
    refused: usize,
}

impl Tally {
    fn count(&mut self, case: &Case, right: &Observed) {
        self.cases += 1;
        *self.by_outcome.entry(right.outcome.word()).or_default() += 1;
        if right.outcome == Outcome::Refused(10) {
            self.refused += (direct::refusal(&case.left(), 4095) != Some(10)) as usize;
            return;
        }
        if matches!(right.outcome, Outcome::Refused(_)) {
            return;
        }
        let (counted, rest) = case.events.split_at(right.events);
        let foreign = case.foreign(counted);
        self.by_counted[foreign.min(3)] += 1;
        self.not_read += (case.foreign(rest) > 0) as usize;
        if foreign == 0 {
            return;
        }
        let Setting {
            strict,
            overall,
            limit,
            ..
        } = case.setting;
        let passed_over = || counted.iter().filter(|event| case.is_foreign(event));
        for event in passed_over() {
            self.by_look[look(case, event)] += 1;
        }
        self.by_call[case.call.number() as usize] += 1;
        let mode = (
            strict,
            case.suppressing(),
            overall.is_some(),
            limit.is_some(),
        );
        *self.by_mode.entry(mode).or_default() += 1;
        let ends = |event: &Event| u64::from(event.time) == right.time;
        let silent = matches!(right.outcome, Outcome::Timeout | Outcome::Suppressed);
        self.at_the_end += (silent && passed_over().any(ends)) as usize;
        let cut = right.outcome == Outcome::Timeout && overall.map(u64::from) == Some(right.time);
        self.cut += (cut && case.foreign(rest) > 0) as usize;
        self.hushed += (right.outcome == Outcome::Suppressed) as usize;
        self.limited += matches!(right.outcome, Outcome::PendingLimit { .. }) as usize;
    }

    fn print(&self) {
        println!("By outcome:");
        for (word, count) in &self.by_outcome {
            println!("  {count:>10}  {word}");
        }
        println!("By foreign replies counted:");
        for (name, count) in ["none", "one", "two", "more"].iter().zip(self.by_counted) {
            println!("  {count:>10}  {name}");
        }
        println!("Foreign replies counted, by what they look like:");
        for (name, count) in LOOKS.iter().zip(self.by_look) {
            println!("  {count:>10}  {name}");
        }
        println!("With one counted, by call:");
        for (call, count) in self.by_call.iter().enumerate() {
            println!("  {count:>10}  call {call}");
        }
        println!("With one counted, by mode:");
        for (&(strict, suppressing, overall, limit), count) in &self.by_mode {
            let mode = if strict { "strict" } else { "lenient" };
            let bit_7 = if suppressing { ", bit 7 set" } else { "" };
            let overall = if overall { ", with T" } else { "" };
            let limit = if limit { ", with a limit" } else { "" };
            println!("  {count:>10}  {mode}{bit_7}{overall}{limit}");
        }
        println!(
            "A foreign reply came when the silence ended in {} cases, was not read in {}, and came before and after T in {}; \
             silence that was asked for had one in {}, and so had {} calls that a limit ended. Refused for the whole list \
             and not for what is left: {}.",
            self.at_the_end, self.not_read, self.cut, self.hushed, self.limited, self.refused
        );
    }

    /// What must not be missing.
    fn is_whole(&self) -> bool {
        let numbers = [
            self.at_the_end,
            self.not_read,
            self.cut,
            self.hushed,
            self.limited,
            self.refused,
        ];
        let counts = self.by_counted.iter().chain(&self.by_look);
        counts
            .chain(&self.by_call)
            .chain(&numbers)
            .all(|&count| count > 0)
            && self.by_mode.len() == 16
    }
}

/// Document 02's request as it is read, with the line of each row: what is said to be right is held to these first. Reads
/// of F190, strict, that listen to 7E8.
fn readings() -> Vec<(Case, &'static str)> {
    const OURS: u16 = 0x7e8;
    const OTHER: u16 = 0x7e9;
    let good: &[u8] = &[0x62, 0xf1, 0x90, 0x41, 0x42];
    let wait: &[u8] = &[0x7f, 0x22, 0x78];
    let usual = Setting {
        listens: Some(OURS),
        ..Setting::default()
    };
    let until = |overall| Setting {
        overall: Some(overall),
        ..usual
    };
    let to_0 = Setting {
        listens: Some(0),
        ..usual
    };
    let limited = Setting {
        limit: Some(0),
        ..usual
    };
    let read = || Call::ReadIdentifier { id: 0xf190 };
    let said = |call: Call, setting, replies: &[(u16, u32, &[u8])]| {
        let mut case = Case::new(call, setting);
        for &(source, time, reply) in replies {
            case.reply_from(source, time, reply);
        }
        case
    };
    let with = |setting, replies: &[(u16, u32, &[u8])]| said(read(), setting, replies);
    let kind = |kind, source| {
        let mut case = Case::new(read(), usual);
        case.reply(10, good).event(20, kind, 0).events[1].source = source;
        case
    };
    let reset = || Call::Reset { sub: 0x81 };
    vec![
        (
            with(
                usual,
                &[(OURS, 20, wait), (OTHER, 30, wait), (OURS, 900, good)],
            ),
            "positive 900 3 1 4142",
        ),
        (with(usual, &[(0, 10, good)]), "timeout 50 1 0 -"),
        (
            with(to_0, &[(OURS, 10, good), (0, 20, good)]),
            "positive 20 2 0 4142",
        ),
        (with(usual, &[(OTHER, 50, good)]), "timeout 50 1 0 -"),
        (with(usual, &[(OTHER, 51, good)]), "timeout 50 0 0 -"),
        (
            with(usual, &[(OURS, 10, good), (OTHER, 10, good)]),
            "positive 10 1 0 4142",
        ),
        (
            with(usual, &[(OTHER, 10, wait), (OURS, 60, good)]),
            "timeout 50 1 0 -",
        ),
        (
            with(
                usual,
                &[(OTHER, 10, &[0x7f]), (OTHER, 11, &[]), (OURS, 12, good)],
            ),
            "positive 12 3 0 4142",
        ),
        (
            with(until(30), &[(OTHER, 20, good), (OTHER, 40, good)]),
            "timeout 30 1 0 -",
        ),
        (
            said(reset(), usual, &[(OTHER, 10, &[0x51, 0x01])]),
            "suppressed 50 1 0 -",
        ),
        (
            said(reset(), usual, &[(OTHER, 10, &[0x7f, 0x11, 0x78])]),
            "suppressed 50 1 0 -",
        ),
        (
            said(
                reset(),
                until(30),
                &[
                    (OTHER, 5, good),
                    (OURS, 10, &[0x7f, 0x11, 0x22]),
                    (OTHER, 20, good),
                ],
            ),
            "timeout 30 2 0 -",
        ),
        (
            with(limited, &[(OTHER, 10, wait), (OURS, 20, wait)]),
            "pendinglimit 20 2 1 -",
        ),
        (kind(IDLE, OTHER), "refused 0 0 0 0a"),
        (kind(END, OURS), "refused 0 0 0 0a"),
        (kind(ERROR, 1), "refused 0 0 0 0a"),
        (kind(END, 0), "positive 10 1 0 4142"),
        (
            with(usual, &[(OURS, 10, good), (OTHER, 9, &[])]),
            "refused 0 0 0 0a",
        ),
    ]
}

/// The command `foreign`: a side on the generated cases but those of every short reply, and on cases of waiting, with
/// addresses: all replies from the address listened to, and with foreign ones among them.
pub fn foreign(side: Side, seed: u64) -> Result<usize, String> {
    let mut original = Original::default();
    let mut tally = Tally::default();
    let fail = |tally: &mut Tally, show: &mut dyn FnMut()| {
        tally.failed += 1;
        if tally.failed <= SHOWN {
            show();
        }
    };
    for (case, wanted) in readings() {
        tally.cases += 1;
        let line = log::line(&right(&mut original, &case));
        if line != wanted {
            fail(&mut tally, &mut || {
                println!("What is right says {line}, and is to say {wanted}.")
            });
        }
    }
    let mut try_one = |rng: &mut Rng, case: &Case| {
        with_addresses(&mut original, rng, case, &mut |original, case, right| {
            tally.count(case, right);
            let fields = wrong(case, right, side);
            if !fields.is_empty() {
                fail(&mut tally, &mut || {
                    let mut judged = |case: &Case| self::right(original, case);
                    let least =
                        smallest(case, &mut |case| wrong(case, &judged(case), side) == fields);
                    println!("Mismatch: {}", fields.join(", "));
                    show(&least, &judged(&least), &side(&least));
                });
            }
        });
    };
    for (at, generator) in GENERATORS.iter().enumerate().skip(2) {
        let mut rng = address_rng(seed, at);
        (generator.run)(&mut generator_rng(seed, at), &mut |case| {
            try_one(&mut rng, case)
        });
    }
    let mut rng = address_rng(seed, 0);
    let mut draw = generator_rng(seed, GENERATORS.len());
    generate::waiting(&mut draw, WAITING, &mut |case| try_one(&mut rng, case));
    tally.print();
    if !tally.is_whole() {
        return Err(
            "A call, a mode, a look of a foreign reply or a place for one has no case.".to_string(),
        );
    }
    println!(
        "{} passed, {} failed",
        tally.cases - tally.failed,
        tally.failed
    );
    Ok(tally.failed)
}

/// The fields in which a side differs from what is right; besides, whether it differs from its own answer to what is left in
/// anything but the count of events read, and that by another number than the foreign replies among the events counted.
fn wrong(case: &Case, right: &Observed, side: Side) -> Vec<&'static str> {
    let answer = side(case);
    let mut fields = differences(case, right, &answer);
    if has_counterpart(case) {
        let mut left = side(&case.left());
        let counted = case.events.get(..answer.events).unwrap_or_default();
        left.events += case.foreign(counted);
        if left != answer {
            fields.push("its own answer to what is left");
        }
    }
    fields
}

/// The command `logs`: a side's line of each log, of either version.
pub fn logs(side: Side, logs: &str, expected: &str) -> Result<usize, String> {
    let file = lines::file(logs)?;
    let logs = log::split(&file)?;
    let wanted = lines::expected(expected, logs.len())?;
    let (mut addressed, mut bad, mut failed) = (0, 0, 0);
    for (at, (log, wanted)) in logs.iter().zip(&wanted).enumerate() {
        let line = match log::read(log) {
            None => {
                bad += 1;
                log::BADLOG.to_string()
            }
            Some(case) => {
                addressed += case.setting.listens.is_some() as usize;
                log::line(&side(&case))
            }
        };
        if line != *wanted {
            failed += 1;
            println!("log {at}: expected {wanted}\n  got {line}");
        }
    }
    println!("{addressed} of these logs have version 2, and {bad} are bad.");
    println!("{} passed, {failed} failed", logs.len() - failed);
    Ok(failed)
}
