//! The line of each log of a file, from the original wherever the log has a counterpart there.

use crate::model::{Call, Case, Data, Observed, Outcome};
use crate::original::Original;
use crate::{direct, foreign, log};

/// Where a line comes from. Of a log of version 2 the original gets the events left once foreign replies are dropped.
#[derive(Debug, Clone, Copy, PartialEq, Eq)]
pub enum Source {
    Original,
    /// Call 15: the exchange is the original's, the checks behind a positive are document 02's.
    Exchange,
    /// Refusals 8 to 10, which the original does not have.
    NoCounterpart(u8),
    BadLog,
}

/// The line of a log.
pub fn line_of(original: &mut Original, log: &[u8]) -> (String, Source) {
    let Some(case) = log::read(log) else {
        return (log::BADLOG.to_string(), Source::BadLog);
    };
    match direct::refusal(&case, 4095) {
        Some(number @ 8..=10) => (
            log::line(&direct::run(&case)),
            Source::NoCounterpart(number),
        ),
        _ => {
            let mut observed = foreign::right(original, &case);
            if observed.outcome == Outcome::Positive(Data::NotHandedOut) {
                let data = handed_by_rule(&case, &observed).to_vec();
                observed.outcome = Outcome::Positive(Data::Bytes(data));
            }
            let source = match case.call {
                Call::FaultList { .. } => Source::Exchange,
                _ => Source::Original,
            };
            (log::line(&observed), source)
        }
    }
}

/// The data of calls 6, 11 and 12, which the original keeps to itself, by document 01's rule: "all after the SID" and "the n"
/// of the reply that it read last.
pub fn handed_by_rule<'c>(case: &'c Case, original: &Observed) -> &'c [u8] {
    let event = case.events[original.events - 1];
    let reply = &case.replies[event.offset as usize..][..event.length as usize];
    match case.call {
        Call::WriteMemory { .. } => &reply[1..],
        _ => &reply[2..2 + reply[1] as usize / 16],
    }
}

/// The bytes of a file.
pub fn file(path: &str) -> Result<Vec<u8>, String> {
    std::fs::read(path).map_err(|error| format!("{path} cannot be read: {error}."))
}

/// The expected lines of so many logs.
pub fn expected(path: &str, logs: usize) -> Result<Vec<String>, String> {
    let lines = std::fs::read_to_string(path)
        .map_err(|error| format!("{path} cannot be read: {error}."))?;
    let lines: Vec<String> = lines.lines().map(String::from).collect();
    if lines.len() != logs {
        return Err(format!(
            "There are {logs} logs and {} expected lines.",
            lines.len()
        ));
    }
    Ok(lines)
}

/// Prints the line of each log of a file, or compares it with the expected one.
pub fn lines(logs: &str, wanted: Option<&str>) -> Result<usize, String> {
    let file = file(logs)?;
    let logs = log::split(&file)?;
    let mut original = Original::default();
    let Some(wanted) = wanted else {
        for log in logs {
            println!("{}", line_of(&mut original, log).0);
        }
        return Ok(0);
    };
    let wanted = expected(wanted, logs.len())?;
    let (mut by_original, mut by_exchange, mut refused, mut bad, mut failed) = (0, 0, 0, 0, 0);
    for (at, (log, wanted)) in logs.iter().zip(&wanted).enumerate() {
        let (line, source) = line_of(&mut original, log);
        match source {
            Source::Original => by_original += 1,
            Source::Exchange => by_exchange += 1,
            Source::NoCounterpart(_) => refused += 1,
            Source::BadLog => bad += 1,
        }
        if line != *wanted {
            failed += 1;
            println!("log {at}: expected {wanted}\n  got {line} ({source:?})");
        }
    }
    println!(
        "{by_original} lines are the original's; {by_exchange} lines of call 15 are by its exchange and document 02's \
         checks; {refused} logs with refusal 8 or 10 and {bad} bad logs have no counterpart there, and their lines are \
         document 01's."
    );
    println!("{} passed, {failed} failed", logs.len() - failed);
    Ok(failed)
}
