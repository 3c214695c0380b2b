//! The fixed list that the gate replays: logs of every call, outcome, deviation and refusal that a log can express, long
//! and short, valid and damaged, with the lines that the original gives them.

use crate::direct;
use crate::generate::{good_reply, sample_calls};
use crate::lines::{line_of, Source};
use crate::log;
use crate::model::{Call, Case, Memory, Setting, END, ERROR, IDLE};
use crate::original::Original;
use crate::rng::Rng;
use crate::sample::sample;
use std::collections::{BTreeMap, BTreeSet};

/// Logs above this length are kept in small numbers only.
const SHORT: usize = 400;

/// Of the generated cases, those that a log can say; of the long ones a part.
fn drawn(seed: u64) -> Vec<Vec<u8>> {
    let wanted = |case: &Case, draw: &mut Rng| {
        let alfid = matches!(case.call.memory(), Some(Memory::Alfid { .. }));
        let data = case.call.data().map_or(0, <[u8]>::len);
        let long = case.events.len() > 16 || case.replies.len() + data > SHORT;
        !alfid && (!long || draw.once_in(60))
    };
    let cases = sample(seed, 1, wanted);
    cases.iter().filter_map(log::write).collect()
}

/// The ten examples of document 01, as far as a log says them.
fn examples() -> Vec<Vec<u8>> {
    let strict = Setting::default();
    let lenient = Setting {
        strict: false,
        ..strict
    };
    let quiet = Setting {
        quiet: true,
        ..strict
    };
    let until = |overall| Setting {
        overall: Some(overall),
        ..strict
    };
    let read = || Call::ReadIdentifier { id: 0xf190 };
    let reset = || Call::Reset { sub: 0x81 };
    let memory = |size: &[u8]| Memory::Bytes {
        address: vec![0x20, 0x00],
        size: size.to_vec(),
    };
    let download = || Call::Download {
        compression: 0,
        encryption: 0,
        memory: memory(&[0x10]),
    };
    let mut cases = Vec::new();
    for time in [900, 5020, 5021] {
        for setting in [strict, until(900), until(899)] {
            let mut case = Case::new(read(), setting);
            case.reply(20, &[0x7f, 0x22, 0x78]);
            case.reply(time, &[0x62, 0xf1, 0x90, 0x41, 0x42]);
            cases.push(case);
        }
    }
    for setting in [strict, quiet] {
        cases.push(Case::new(Call::TesterPresent, setting));
    }
    let mut one = |call: Call, setting: Setting, reply: &[u8]| {
        let mut case = Case::new(call, setting);
        case.reply(10, reply);
        cases.push(case);
    };
    for setting in [strict, lenient] {
        one(reset(), setting, &[0x51, 0x01]);
        one(reset(), setting, &[0x7f, 0x11, 0x22]);
        one(read(), setting, &[0x7f, 0x31, 0x78]);
        for reply in [&[0x63][..], &[0x63, 0xaa]] {
            let memory = memory(&[0]);
            one(Call::ReadMemory { memory }, setting, reply);
        }
        one(download(), setting, &[0x74, 0x20, 0x0f, 0xfa]);
        one(download(), setting, &[0x74, 0x10, 0x02]);
        one(
            download(),
            setting,
            &[0x74, 0x90, 1, 0, 0, 0, 0, 0, 0, 0, 0],
        );
        let call = Call::Request {
            sid: 0x3f,
            sub: None,
            data: None,
        };
        one(call, setting, &[0x7f, 0x01]);
    }
    cases.iter().filter_map(log::write).collect()
}

/// Refusals 8 and 10, which the original does not have.
fn refused(rng: &mut Rng) -> Vec<Vec<u8>> {
    let mut cases = Vec::new();
    for mut call in sample_calls() {
        // The shortest request that is too long, and the longest that is not.
        let shortest = direct::call(&Case::new(call.clone(), Setting::default()), &mut [0; 4095]);
        let without = shortest.request - call.data().map_or(0, <[u8]>::len);
        for length in [4095 - without, 4096 - without] {
            let data = rng.bytes(length);
            let place = match call.optional_data_mut() {
                Some(place) => Some(place.insert(data)),
                None => call.data_mut().map(|place| {
                    *place = data;
                    place
                }),
            };
            if place.is_some() && matches!(call.number(), 0 | 6 | 13) {
                let mut case = Case::new(call.clone(), Setting::default());
                let reply = good_reply(&call, rng);
                cases.push(case.reply(10, &reply).clone());
                // Refusal 8 comes before 10.
                cases.push(case.event(9, IDLE, 0).clone());
            }
        }
    }
    for call in sample_calls() {
        let mut good = Case::new(call.clone(), Setting::default());
        let reply = good_reply(&call, rng);
        good.reply(10, &reply).reply(20, &reply);
        let mut with = |change: &dyn Fn(&mut Case)| {
            let mut case = good.clone();
            change(&mut case);
            cases.push(case);
        };
        with(&|case| case.events[1].time = 9);
        with(&|case| case.events[1].time = 10);
        with(&|case| case.events[1].kind = 4);
        with(&|case| case.events[1].kind = 65535);
        with(&|case| case.events[0].kind = 256);
        with(&|case| case.events[1].offset += 1);
        with(&|case| case.events[1].length += 1);
        with(&|case| case.events[1].length = 4096);
        with(&|case| case.events[1].offset = 65535);
        with(&|case| {
            case.replies.resize(4200, 0);
            case.events[1].length = 4096;
        });
        with(&|case| {
            // An empty reply may stand at the end of the reply bytes, and not behind it.
            case.events[1].length = 0;
            case.events[1].offset = case.replies.len() as u16;
        });
        with(&|case| {
            case.events[1].length = 0;
            case.events[1].offset = case.replies.len() as u16 + 1;
        });
        with(&|case| {
            // Shared and unnamed reply bytes are sound.
            case.events[1].offset = 0;
        });
    }
    for count in [511, 512, 513, 600] {
        for kind in [IDLE, END, ERROR] {
            let mut case = Case::new(Call::TesterPresent, Setting::default());
            for _ in 0..count {
                case.event(7, kind, 0);
            }
            cases.push(case);
        }
    }
    // A refusal by an argument comes before 8 and 10.
    for length in [0, 1, 15, 16, 255] {
        let memory = Memory::Bytes {
            address: rng.bytes(length),
            size: rng.bytes(15 - length.min(15)),
        };
        let data = rng.bytes(4095);
        let mut case = Case::new(Call::WriteMemory { memory, data }, Setting::default());
        case.event(2, IDLE, 0).event(1, IDLE, 0);
        cases.push(case);
    }
    cases.iter().filter_map(log::write).collect()
}

/// Damaged copies of a sound log: every field of the header and of an event one off, flags and bits that are unused, and
/// bytes more or fewer. (Some of these are still sound.)
fn damaged(log: &[u8], rng: &mut Rng) -> Vec<Vec<u8>> {
    let mut logs = Vec::new();
    let mut with = |change: &mut dyn FnMut(&mut Vec<u8>)| {
        let mut copy = log.to_vec();
        change(&mut copy);
        logs.push(copy);
    };
    for at in 0..36 {
        with(&mut |log| log[at] = log[at].wrapping_add(1));
        with(&mut |log| log[at] = log[at].wrapping_sub(1));
        with(&mut |log| log[at] ^= 0x80);
    }
    for bit in 0..8 {
        with(&mut |log| log[3] ^= 1 << bit);
    }
    let events_at = u16::from_be_bytes([log[16], log[17]]) as usize;
    for at in events_at..(events_at + 20).min(log.len()) {
        with(&mut |log| log[at] = log[at].wrapping_add(1));
    }
    with(&mut |log| log.push(0));
    with(&mut |log| {
        log.pop();
    });
    let cut = rng.below(log.len());
    with(&mut |log| log.truncate(cut));
    for area in [10, 14, 18] {
        // A gap before the area that follows, or none where the area has grown.
        with(&mut |log| log[area + 1] = log[area + 1].wrapping_add(1));
        with(&mut |log| log[area + 3] = 0);
    }
    logs
}

/// Logs that are no logs.
fn strays(rng: &mut Rng) -> Vec<Vec<u8>> {
    let mut logs: Vec<Vec<u8>> = (0..40).map(|length| rng.bytes(length)).collect();
    for length in [1, 35, 36, 37] {
        logs.push(vec![0; length]);
    }
    let sound = log::write(&Case::new(Call::TesterPresent, Setting::default()));
    let mut long = sound.expect("this case has a log");
    // More than 65,535 bytes, with the total that 16 bits make of it.
    long.resize(65_536 + 36, 0);
    long[22..24].copy_from_slice(&36u16.to_be_bytes());
    logs.push(long);
    logs
}

/// The classes that the list must have: words, and words with a number.
fn wanted() -> BTreeSet<String> {
    let words = [
        "positive",
        "suppressed",
        "negative",
        "timeout",
        "disconnected",
        "transport",
        "length",
        "overflow",
        "badlog",
    ];
    let mut wanted: BTreeSet<String> = words.map(String::from).into();
    wanted.extend((1..=15).map(|number| format!("deviation {number:02x}")));
    wanted.extend([1, 2, 3, 4, 5, 8, 10].map(|number| format!("refused {number:02x}")));
    wanted.extend((0..16).map(|call| format!("call {call}")));
    wanted
}

/// The class of a line.
fn class(line: &str) -> String {
    let words: Vec<&str> = line.split(' ').collect();
    match words[0] {
        word @ ("deviation" | "refused") => format!("{word} {}", &words[4][..2]),
        word => word.to_string(),
    }
}

/// The command: writes PREFIX.bin and PREFIX.expected.
pub fn list(prefix: &str, seed: u64) -> Result<usize, String> {
    let mut rng = Rng::new(seed);
    let mut logs = examples();
    let chosen = drawn(seed);
    for call in sample_calls() {
        for strict in [true, false] {
            let setting = Setting {
                strict,
                ..Setting::default()
            };
            let mut case = Case::new(call.clone(), setting);
            let reply = good_reply(&call, &mut rng);
            let log = log::write(case.event(3, IDLE, 0).reply(10, &reply));
            let log = log.expect("a sample call has a log");
            // All damage once; of the other copies a part.
            let copies = damaged(&log, &mut rng);
            logs.push(log);
            let part = if strict && call.number() == 7 { 1 } else { 12 };
            logs.extend(copies.into_iter().filter(|_| rng.once_in(part)));
        }
    }
    logs.extend(refused(&mut rng));
    logs.extend(strays(&mut rng));
    logs.extend(chosen);

    let mut original = Original::default();
    let mut seen = BTreeSet::new();
    let (mut file, mut lines) = (Vec::new(), String::new());
    let mut classes: BTreeMap<String, usize> = BTreeMap::new();
    let (mut count, mut by_original, mut by_exchange) = (0, 0, 0);
    for log in logs {
        if !seen.insert(log.clone()) {
            continue;
        }
        let (line, source) = line_of(&mut original, &log);
        count += 1;
        by_original += (source == Source::Original) as usize;
        by_exchange += (source == Source::Exchange) as usize;
        *classes.entry(class(&line)).or_default() += 1;
        if source != Source::BadLog {
            *classes.entry(format!("call {}", log[2])).or_default() += 1;
        }
        file.extend((log.len() as u32).to_be_bytes());
        file.extend(log);
        lines.push_str(&line);
        lines.push('\n');
    }
    for (class, count) in &classes {
        println!("  {count:>6}  {class}");
    }
    let missing: Vec<String> = wanted()
        .into_iter()
        .filter(|class| !classes.contains_key(class))
        .collect();
    if !missing.is_empty() {
        return Err(format!("The list has no log for: {}.", missing.join(", ")));
    }
    for (name, content) in [("bin", &file[..]), ("expected", lines.as_bytes())] {
        let path = format!("{prefix}.{name}");
        std::fs::write(&path, content)
            .map_err(|error| format!("{path} cannot be written: {error}."))?;
    }
    println!(
        "{count} logs, {} bytes, in {prefix}.bin; {by_original} of the lines in {prefix}.expected are the original's, \
         {by_exchange} (call 15) by its exchange and document 02's checks, the rest (bad logs, refusals 8 and 10) \
         document 01's.",
        file.len()
    );
    Ok(0)
}
