//! Document 02's limit of notices, which the original does not have. Under one, a count of notices over the events that the
//! original reads without one says what is right; everything else is the original's.

use crate::compare::{differences, judged, show, smallest, Side, SHOWN};
use crate::generate::{self, GENERATORS};
use crate::lines;
use crate::log;
use crate::model::{Call, Case, Event, Observed, Outcome, Setting, REPLY};
use crate::original::Original;
use crate::sample::generator_rng;
use std::collections::{BTreeMap, BTreeSet};

/// "a limit of K notices, 0..255, or none": those that every case is given, beside those around its own notices.
const LIMITS: [Option<u8>; 6] = [None, Some(0), Some(1), Some(2), Some(3), Some(255)];

/// How many cases of waiting there are, and of these for the faults.
const WAITING: usize = 400_000;
const WAITING_FOR_FAULTS: usize = 4_000;

/// What the original does without a limit, and how many events and notices it reads without T.
pub struct Unlimited {
    observed: Observed,
    read: usize,
    notices: usize,
}

impl Unlimited {
    pub fn of(original: &mut Original, case: &Case) -> Unlimited {
        let observed = judged(original, case, Original::run);
        let (mut read, mut notices) = (observed.events, observed.notices);
        if case.setting.overall.is_some() {
            let mut case = case.clone();
            case.setting.overall = None;
            let all = judged(original, &case, Original::run_alone);
            (read, notices) = (all.events, all.notices);
        }
        Unlimited {
            observed,
            read,
            notices,
        }
    }
}

/// What is a notice: "strict exactly 7F SID 78, lenient any 7F of three or more bytes with 78 third".
fn is_notice(case: &Case, event: &Event) -> bool {
    if event.kind != REPLY {
        return false;
    }
    let reply = bytes(case, event);
    if case.setting.strict {
        reply == [0x7f, case.call.sid(), 0x78]
    } else {
        reply.len() >= 3 && reply[0] == 0x7f && reply[2] == 0x78
    }
}

fn bytes<'c>(case: &'c Case, event: &Event) -> &'c [u8] {
    &case.replies[event.offset as usize..][..event.length as usize]
}

fn notices(case: &Case, events: &[Event]) -> usize {
    events.iter().filter(|event| is_notice(case, event)).count()
}

/// The events up to the notice after the K-th, if there is a limit and so many are read.
fn up_to_limit<'c>(case: &'c Case, unlimited: &Unlimited) -> Option<&'c [Event]> {
    let mut places = (0..unlimited.read).filter(|&at| is_notice(case, &case.events[at]));
    let last = places.nth(case.setting.limit?.into())?;
    Some(&case.events[..=last])
}

/// "The notice after the K-th ends the call with the new outcome `pendinglimit` at its arrival time, in both modes." It is
/// counted; arriving after T, it is a timeout at T with the counts up to T. A limit that is not reached changes nothing.
pub fn right(case: &Case, unlimited: &Unlimited) -> Observed {
    let Some(heard @ [.., last]) = up_to_limit(case, unlimited) else {
        return unlimited.observed.clone();
    };
    let until = case.setting.overall.unwrap_or(u32::MAX);
    let mut counted = heard.to_vec();
    counted.retain(|event| event.time <= until);
    Observed {
        request: unlimited.observed.request.clone(),
        outcome: if last.time <= until {
            Outcome::PendingLimit {
                reply: bytes(case, last).to_vec(),
            }
        } else {
            Outcome::Timeout
        },
        time: last.time.min(until).into(),
        events: counted.len(),
        notices: notices(case, &counted),
        number: None,
        timing: (case.setting.p2.into(), case.setting.p2_star.into()),
        place: None,
    }
}

/// Visits a case under every limit, with what is right and whether it is cut by T before the limit's notice. Answers whether
/// the count of its notices is the original's.
fn with_limits(
    original: &mut Original,
    case: &Case,
    visit: &mut dyn FnMut(&mut Original, &Case, &Observed, bool),
) -> bool {
    let unlimited = Unlimited::of(original, case);
    let around = [
        unlimited.notices.wrapping_sub(1),
        unlimited.notices,
        unlimited.notices + 1,
    ];
    let around = around.into_iter().filter_map(|k| u8::try_from(k).ok());
    let limits: BTreeSet<Option<u8>> = LIMITS.into_iter().chain(around.map(Some)).collect();
    let mut case = case.clone();
    for limit in limits {
        case.setting.limit = limit;
        let right = right(&case, &unlimited);
        let reached = up_to_limit(&case, &unlimited).is_some();
        visit(
            original,
            &case,
            &right,
            reached && right.outcome == Outcome::Timeout,
        );
    }
    notices(&case, &case.events[..unlimited.read]) == unlimited.notices
}

/// Cases of waiting under limits, each with what is right.
pub fn judged_cases(seed: u64) -> Vec<(Case, Observed)> {
    let mut original = Original::default();
    let mut cases = Vec::new();
    let mut rng = generator_rng(seed, GENERATORS.len());
    generate::waiting(&mut rng, WAITING_FOR_FAULTS, &mut |case| {
        with_limits(&mut original, case, &mut |_, case, right, _| {
            cases.push((case.clone(), right.clone()));
        });
    });
    cases
}

/// What a run covered.
#[derive(Default)]
struct Tally {
    cases: usize,
    failed: usize,
    by_limit: BTreeMap<Option<u8>, (usize, usize)>,
    by_outcome: BTreeMap<&'static str, usize>,
    ended_by_call: [usize; 16],
    ended_by_mode: BTreeMap<(bool, bool, bool), usize>,
    cut: usize,
}

impl Tally {
    fn count(&mut self, case: &Case, right: &Observed, cut: bool) {
        let Setting {
            strict,
            overall,
            limit,
            ..
        } = case.setting;
        let ended = matches!(right.outcome, Outcome::PendingLimit { .. });
        self.cases += 1;
        self.cut += cut as usize;
        let (all, by_it) = self.by_limit.entry(limit).or_default();
        *all += 1;
        *by_it += ended as usize;
        *self.by_outcome.entry(right.outcome.word()).or_default() += 1;
        if ended {
            self.ended_by_call[case.call.number() as usize] += 1;
            let mode = (strict, case.suppressing(), overall.is_some());
            *self.ended_by_mode.entry(mode).or_default() += 1;
        }
    }

    fn print(&self) {
        println!("By limit, and how many of these end by it:");
        let mut others = (0, 0);
        for (limit, &(all, by_it)) in &self.by_limit {
            match limit {
                None => println!("  {all:>10} {by_it:>10}  none"),
                Some(k) if LIMITS.contains(limit) => println!("  {all:>10} {by_it:>10}  {k}"),
                Some(_) => others = (others.0 + all, others.1 + by_it),
            }
        }
        println!("  {:>10} {:>10}  others", others.0, others.1);
        println!("By outcome:");
        for (word, count) in &self.by_outcome {
            println!("  {count:>10}  {word}");
        }
        println!("Ended by the limit, by call:");
        for (call, count) in self.ended_by_call.iter().enumerate() {
            println!("  {count:>10}  call {call}");
        }
        println!("Ended by the limit, by mode:");
        for (&(strict, suppressing, overall), count) in &self.ended_by_mode {
            let mode = if strict { "strict" } else { "lenient" };
            let bit_7 = if suppressing { ", bit 7 set" } else { "" };
            let overall = if overall { ", with T" } else { "" };
            println!("  {count:>10}  {mode}{bit_7}{overall}");
        }
        println!("The limit's notice came after T in {} cases.", self.cut);
    }

    /// What must not be missing.
    fn is_whole(&self) -> bool {
        let limits = LIMITS.iter().skip(1);
        let ended = |limit: &Option<u8>| self.by_limit.get(limit).is_some_and(|&(_, n)| n > 0);
        limits.clone().all(ended)
            && self.ended_by_call.iter().all(|&count| count > 0)
            && self.ended_by_mode.len() == 8
            && self.cut > 0
    }
}

/// Document 02's request as it is read, with the line of each row: the count itself is held to these first.
fn readings() -> Vec<(Case, &'static str)> {
    let strict = |limit| Setting {
        limit: Some(limit),
        ..Setting::default()
    };
    let lenient = Setting {
        strict: false,
        ..strict(0)
    };
    let until = |overall| Setting {
        overall: Some(overall),
        ..strict(0)
    };
    let read = || Call::ReadIdentifier { id: 0xf190 };
    let reset = Call::Reset { sub: 0x81 };
    let said = |call: Call, setting, replies: &[(u32, [u8; 3])]| {
        let mut case = Case::new(call, setting);
        for (time, reply) in replies {
            case.reply(*time, reply);
        }
        case
    };
    let (wait, other) = ([0x7f, 0x22, 0x78], [0x7f, 0x31, 0x78]);
    let twice = |time, again| [(time, wait), (again, wait)];
    let one = [(10, wait)];
    vec![
        (said(read(), strict(0), &one), "pendinglimit 10 1 1 -"),
        (
            said(read(), strict(1), &twice(10, 20)),
            "pendinglimit 20 2 2 -",
        ),
        (
            said(read(), strict(0), &[(10, other)]),
            "deviation 10 1 0 027f3178",
        ),
        (
            said(read(), lenient, &[(10, other)]),
            "pendinglimit 10 1 1 -",
        ),
        (
            said(read(), strict(1), &twice(10, 5011)),
            "timeout 5010 1 1 -",
        ),
        (said(read(), strict(1), &[(50, wait)]), "timeout 5050 1 1 -"),
        (
            said(reset, strict(0), &[(10, [0x7f, 0x11, 0x78])]),
            "pendinglimit 10 1 1 -",
        ),
        (said(read(), until(9), &one), "timeout 9 0 0 -"),
        (said(read(), until(10), &one), "pendinglimit 10 1 1 -"),
    ]
}

/// The command `limited`: a side under limits on the generated cases but those of every short reply, and on cases of waiting.
pub fn limited(side: Side, seed: u64) -> Result<usize, String> {
    let mut original = Original::default();
    let mut tally = Tally::default();
    let fail = |tally: &mut Tally, show: &mut dyn FnMut()| {
        tally.failed += 1;
        if tally.failed <= SHOWN {
            show();
        }
    };
    for (case, wanted) in readings() {
        tally.cases += 1;
        let line = log::line(&right(&case, &Unlimited::of(&mut original, &case)));
        if line != wanted {
            fail(&mut tally, &mut || {
                println!("The count says {line}, and is to say {wanted}.")
            });
        }
    }
    let mut try_one = |case: &Case| {
        let same_count = with_limits(&mut original, case, &mut |original, case, right, cut| {
            tally.count(case, right, cut);
            let fields = differences(case, right, &side(case));
            if !fields.is_empty() {
                fail(&mut tally, &mut || {
                    let mut judged = |case: &Case| {
                        let unlimited = Unlimited::of(original, case);
                        self::right(case, &unlimited)
                    };
                    let least = smallest(case, &mut |case| {
                        differences(case, &judged(case), &side(case)) == fields
                    });
                    println!("Mismatch: {}", fields.join(", "));
                    show(&least, &judged(&least), &side(&least));
                });
            }
        });
        if !same_count {
            tally.cases += 1;
            fail(&mut tally, &mut || {
                println!("The original counts other notices in {case:x?}.")
            });
        }
    };
    for (at, generator) in GENERATORS.iter().enumerate().skip(2) {
        (generator.run)(&mut generator_rng(seed, at), &mut try_one);
    }
    let mut rng = generator_rng(seed, GENERATORS.len());
    generate::waiting(&mut rng, WAITING, &mut try_one);
    tally.print();
    if !tally.is_whole() {
        return Err("A limit, a call, a mode or a notice after T has no case.".to_string());
    }
    println!(
        "{} passed, {} failed",
        tally.cases - tally.failed,
        tally.failed
    );
    Ok(tally.failed)
}

/// The command `limits`: the line of each log under the limit that its expected line begins with.
pub fn limits(side: Side, logs: &str, expected: &str) -> Result<usize, String> {
    let file = lines::file(logs)?;
    let logs = log::split(&file)?;
    let wanted = lines::expected(expected, logs.len())?;
    let (mut addressed, mut failed) = (0, 0);
    for (at, (log, wanted)) in logs.iter().zip(&wanted).enumerate() {
        addressed += log.starts_with(&[0, 2]) as usize;
        let (limit, wanted) = wanted.split_once(' ').unwrap_or_default();
        let limit = match limit {
            "none" => None,
            k => Some(k.parse().map_err(|_| format!("{k} is no limit."))?),
        };
        let line = match log::read(log) {
            None => log::BADLOG.to_string(),
            Some(mut case) => {
                case.setting.limit = limit;
                log::line(&side(&case))
            }
        };
        if line != wanted {
            failed += 1;
            println!("log {at}, limit {limit:?}: expected {wanted}\n  got {line}");
        }
    }
    println!("{addressed} of these logs have version 2.");
    println!("{} passed, {failed} failed", logs.len() - failed);
    Ok(failed)
}
