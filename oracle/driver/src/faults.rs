//! That the comparison is not blind: the other side gets the case with a fault put in, and each fault must be noticed.
//! Faults in a copy of the original are `oracle/faults`'.

use crate::compare::{differences, has_counterpart, Side};
use crate::foreign;
use crate::limited;
use crate::model::{Call, Case, Memory, Observed, ERROR, IDLE, REPLY};
use crate::original::Original;
use crate::sample;
use crate::sequences;
use crate::steps::{self, Stepper};
use std::collections::BTreeMap;

struct Fault {
    name: &'static str,
    put_in: fn(&mut Case),
}

const FAULTS: [Fault; 18] = [
    Fault {
        name: "P2 is 1 ms longer",
        put_in: |case| case.setting.p2 = case.setting.p2.saturating_add(1),
    },
    Fault {
        name: "P2* is 1 ms shorter",
        put_in: |case| case.setting.p2_star = case.setting.p2_star.saturating_sub(1),
    },
    Fault {
        name: "T is 1 ms longer",
        put_in: |case| {
            case.setting.overall = case.setting.overall.map(|time| time.saturating_add(1))
        },
    },
    Fault {
        name: "T is left out",
        put_in: |case| case.setting.overall = None,
    },
    Fault {
        name: "strict and lenient swapped",
        put_in: |case| case.setting.strict ^= true,
    },
    Fault {
        name: "the suppressed client and the plain one swapped",
        put_in: |case| case.setting.quiet ^= true,
    },
    Fault {
        name: "server timing on instead of off",
        put_in: |case| case.setting.server_timing = true,
    },
    Fault {
        name: "every event 1 ms later",
        put_in: |case| {
            for event in &mut case.events {
                event.time = event.time.saturating_add(1);
            }
        },
    },
    Fault {
        name: "idle events left out",
        put_in: |case| case.events.retain(|event| event.kind != IDLE),
    },
    Fault {
        name: "the last event left out",
        put_in: |case| {
            case.events.pop();
        },
    },
    Fault {
        name: "transport errors numbered one higher",
        put_in: |case| {
            for event in case.events.iter_mut().filter(|event| event.kind == ERROR) {
                event.length = event.length.wrapping_add(1);
            }
        },
    },
    Fault {
        name: "the last bit of the reply bytes flipped",
        put_in: |case| {
            if let Some(last) = case.replies.last_mut() {
                *last ^= 1;
            }
        },
    },
    Fault {
        name: "the last byte of each longer reply cut off",
        put_in: |case| {
            for event in &mut case.events {
                if event.kind == REPLY && event.length > 3 {
                    event.length -= 1;
                }
            }
        },
    },
    Fault {
        name: "empty data where data is absent",
        put_in: |case| {
            if let Some(data) = case.call.optional_data_mut() {
                data.get_or_insert_with(Vec::new);
            }
        },
    },
    Fault {
        name: "the last data byte left out",
        put_in: |case| {
            if let Some(data) = case.call.data_mut() {
                data.pop();
            }
        },
    },
    Fault {
        name: "address and size swapped",
        put_in: |case| {
            if let Some(Memory::Bytes { address, size }) = case.call.memory_mut() {
                std::mem::swap(address, size);
            }
        },
    },
    Fault {
        name: "an alfid width one larger",
        put_in: |case| {
            if let Some(Memory::Alfid { size_width, .. }) = case.call.memory_mut() {
                *size_width = size_width.saturating_add(1);
            }
        },
    },
    Fault {
        name: "compression and encryption swapped",
        put_in: |case| {
            if let Call::Download {
                compression,
                encryption,
                ..
            }
            | Call::Upload {
                compression,
                encryption,
                ..
            } = &mut case.call
            {
                std::mem::swap(compression, encryption);
            }
        },
    },
];

/// Faults in a limit of notices, which the cases of `limited` must notice.
const LIMIT_FAULTS: [Fault; 2] = [
    Fault {
        name: "the K-th notice ends a call with a limit of K",
        put_in: |case| case.setting.limit = case.setting.limit.map(|most| most.saturating_sub(1)),
    },
    Fault {
        name: "a limit in strict only",
        put_in: |case| case.setting.limit = case.setting.limit.filter(|_| case.setting.strict),
    },
];

/// Faults in addresses, which the cases of `foreign` must notice.
const ADDRESS_FAULTS: [Fault; 2] = [
    Fault {
        name: "a foreign notice moves the deadline",
        put_in: |case| {
            let notice = [0x7f, case.call.sid(), 0x78];
            let listens = case.listens();
            for event in &mut case.events {
                let end = event.offset as usize + event.length as usize;
                let said = case.replies.get(event.offset as usize..end);
                if event.kind == REPLY && said == Some(&notice[..]) {
                    event.source = listens;
                }
            }
        },
    },
    Fault {
        name: "address 0 is heard by everyone",
        put_in: |case| {
            let listens = case.listens();
            for event in &mut case.events {
                if event.kind == REPLY && event.source == 0 {
                    event.source = listens;
                }
            }
        },
    },
];

/// The cases with what the original does.
fn judged_cases(seed: u64) -> Vec<(Case, Observed)> {
    let mut original = Original::default();
    let judged = |case: Case| {
        let right = original.run(&case);
        (case, right)
    };
    let cases = sample::sample(seed, 4, |case, _| has_counterpart(case));
    cases.into_iter().map(judged).collect()
}

/// In how many cases something differs, and how often which field does, if the side gets the cases with a fault.
fn noticed(cases: &[(Case, Observed)], side: Side, put_in: fn(&mut Case)) -> (usize, String) {
    let mut noticed = 0;
    let mut by_field: BTreeMap<&str, usize> = BTreeMap::new();
    for (case, right) in cases {
        let mut faulty = case.clone();
        put_in(&mut faulty);
        let fields = differences(case, right, &side(&faulty));
        noticed += !fields.is_empty() as usize;
        for field in fields {
            *by_field.entry(field).or_default() += 1;
        }
    }
    let fields: Vec<String> = by_field
        .iter()
        .map(|(field, count)| format!("{field} {count}"))
        .collect();
    (noticed, fields.join(", "))
}

/// The command `faults`: each fault must be noticed, and without one nothing.
pub fn faults(side: Side, stepper: Stepper, seed: u64) -> Result<usize, String> {
    let cases = judged_cases(seed);
    let mut failed = 0;
    let mut say = |name: &str, ok: bool, (count, fields): (usize, String)| {
        failed += !ok as usize;
        let verdict = if ok { "ok" } else { "FAILED" };
        println!("{verdict}: {name}: noticed in {count} cases ({fields})");
    };
    println!(
        "{} cases, some of each kind of every generator.",
        cases.len()
    );
    let without = noticed(&cases, side, |_| {});
    say("no fault", without.0 == 0, without);
    for Fault { name, put_in } in &FAULTS {
        let with = noticed(&cases, side, *put_in);
        say(name, with.0 > 0, with);
    }
    let cases = limited::judged_cases(seed);
    println!("{} cases under limits of notices.", cases.len());
    let without = noticed(&cases, side, |_| {});
    say("no fault under limits", without.0 == 0, without);
    for Fault { name, put_in } in &LIMIT_FAULTS {
        let with = noticed(&cases, side, *put_in);
        say(name, with.0 > 0, with);
    }
    let cases = foreign::judged_cases(seed);
    println!("{} cases with foreign replies.", cases.len());
    let without = noticed(&cases, side, |_| {});
    say("no fault in addresses", without.0 == 0, without);
    for Fault { name, put_in } in &ADDRESS_FAULTS {
        let with = noticed(&cases, side, *put_in);
        say(name, with.0 > 0, with);
    }
    let runs = steps::Runs::drawn(seed);
    println!("{} runs, one event at a time.", runs.len());
    let without = runs.noticed(stepper, None);
    say("no fault in steps", without.0 == 0, without);
    for fault in &steps::FAULTS {
        let with = runs.noticed(stepper, Some(fault));
        say(fault.name, with.0 > 0, with);
    }
    let [stays, carried] = sequences::noticed(side, seed);
    println!("2000 sequences of calls on one client.");
    let of = |count: usize| (count, "sequences".to_string());
    say("no fault in sequences", carried == 0, of(carried));
    say("a client that keeps its first timing", stays > 0, of(stays));
    let all = FAULTS.len() + LIMIT_FAULTS.len() + ADDRESS_FAULTS.len() + steps::FAULTS.len() + 6;
    println!("{} passed, {failed} failed", all - failed);
    Ok(failed)
}

/// The command `sample`: a quick comparison on the same cases.
pub fn sample(side: Side, seed: u64) -> Result<usize, String> {
    let cases = judged_cases(seed);
    let (failed, fields) = noticed(&cases, side, |_| {});
    if failed > 0 {
        println!("These differ: {fields}.");
    }
    println!("{} passed, {failed} failed", cases.len() - failed);
    Ok(failed)
}
