//! From a log's bytes to its line: the sets of logs that are measured, one pass of a side over them, and the comparison of a side's
//! lines with the expected ones.

use crate::generate::{good_reply, sample_calls};
use crate::lines::{expected, file};
use crate::model::{Call, Case, Memory, Setting, IDLE};
use crate::original::Original;
use crate::rng::Rng;
use crate::{direct_line, log};
use std::hint::black_box;

/// Writes a log's line at the front of a buffer, and returns its length.
pub type Liner = fn(&[u8], &mut [u8]) -> usize;

pub fn liner(name: &str) -> Result<Liner, String> {
    match name {
        "direct" => Ok(direct_line::line),
        #[cfg(feature = "proved")]
        "proved" => Ok(log_door::line),
        other => Err(format!("There is no side {other} from log to line.")),
    }
}

/// The original's line of a log: the log is read to a case, a client made, and the events played under the paused clock.
pub fn by_original(original: &mut Original, log: &[u8]) -> String {
    match log::read(log) {
        Some(case) => log::line(&original.run_alone(&case)),
        None => log::BADLOG.to_string(),
    }
}

/// Each call, strict, answered positive at once; an `alfid` form has no log.
pub fn one_reply() -> Vec<Vec<u8>> {
    let mut rng = Rng::new(1);
    let calls = sample_calls().into_iter();
    let calls = calls.filter(|call| !matches!(call.memory(), Some(Memory::Alfid { .. })));
    let cases = calls.map(|call| {
        let reply = good_reply(&call, &mut rng);
        let mut case = Case::new(call, Setting::default());
        case.reply(10, &reply);
        case
    });
    cases.filter_map(|case| log::write(&case)).collect()
}

/// 511 idle events, or notices, and then a positive: the exchange reads all of them.
pub fn long_lists() -> Vec<Vec<u8>> {
    let read = || Case::new(Call::ReadIdentifier { id: 0xf190 }, Setting::default());
    let (mut idles, mut notices) = (read(), read());
    for at in 1..512 {
        idles.event(at * 40 / 512, IDLE, 0);
        notices.reply(at, &[0x7f, 0x22, 0x78]);
    }
    let answered = |case: &mut Case, time| {
        case.reply(time, &[0x62, 0xf1, 0x90, 0x41]);
        log::write(case)
    };
    let (idles, notices) = (answered(&mut idles, 45), answered(&mut notices, 600));
    idles.into_iter().chain(notices).collect()
}

/// Writes a set as a file of logs, each after its length.
pub fn set(name: &str, path: &str) -> Result<usize, String> {
    let logs = match name {
        "one-reply" => one_reply(),
        "long-lists" => long_lists(),
        other => return Err(format!("There is no set {other}; it is one-reply or long-lists.")),
    };
    let mut bytes = Vec::new();
    for log in logs {
        bytes.extend((log.len() as u32).to_be_bytes());
        bytes.extend(log);
    }
    std::fs::write(path, bytes).map_err(|error| format!("{path} cannot be written: {error}."))?;
    Ok(0)
}

/// So many passes over the logs of a file, for a counter of instructions to watch: one pass costs the difference of two runs.
pub fn passes(name: &str, path: &str, count: usize) -> Result<usize, String> {
    let file = file(path)?;
    let logs = log::split(&file)?;
    let mut buffer = [0; direct_line::LONGEST];
    for _ in 0..count {
        if name == "original" {
            let mut original = Original::default();
            for log in &logs {
                black_box(by_original(&mut original, black_box(log)));
            }
        } else {
            let line = liner(name)?;
            for log in &logs {
                black_box(line(black_box(log), black_box(&mut buffer)));
            }
        }
    }
    println!("{count} passes over {} logs", logs.len());
    Ok(0)
}

/// A file of logs on standard input to their lines on standard output, by the direct program.
pub fn filter() -> Result<usize, String> {
    direct_line::filter(&mut std::io::stdin().lock(), &mut std::io::stdout().lock())
        .map_err(|error| format!("The lines cannot be written: {error}."))?;
    Ok(0)
}

/// Compares a side's line of each log of a file with the expected one.
pub fn written(name: &str, path: &str, wanted: &str) -> Result<usize, String> {
    let line = liner(name)?;
    let file = file(path)?;
    let logs = log::split(&file)?;
    let wanted = expected(wanted, logs.len())?;
    let mut failed = 0;
    for (at, (log, wanted)) in logs.iter().zip(&wanted).enumerate() {
        let mut buffer = [0; direct_line::LONGEST];
        let n = line(log, &mut buffer);
        let got = String::from_utf8_lossy(&buffer[..n]);
        if got.strip_suffix('\n') != Some(wanted) {
            failed += 1;
            println!("log {at}: expected {wanted}\n  got {got}");
        }
    }
    println!("{} passed, {failed} failed", logs.len() - failed);
    Ok(failed)
}
