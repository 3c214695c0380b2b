//! Several calls one after the other on one client of the original, against a side that is given, with each call, the session timing
//! of its own answer before.

use crate::compare::{differences, show, Side, SHOWN};
use crate::generate::on_one_client;
use crate::model::{Case, Observed};
use crate::original::Original;
use crate::rng::Rng;

/// How many sequences the command runs.
const SEQUENCES: usize = 300_000;

/// The cases as a side is given them, with what it does: the timing goes from answer to answer, or, with a fault put in, stays the
/// first one's.
pub fn on_side(side: Side, cases: &[Case], carries: bool) -> Vec<(Case, Observed)> {
    let mut timing = (cases[0].setting.p2, cases[0].setting.p2_star);
    let step = |case: &Case| {
        let mut case = case.clone();
        (case.setting.p2, case.setting.p2_star) = timing;
        let observed = side(&case);
        if carries {
            timing = (observed.timing.0 as u32, observed.timing.1 as u32);
        }
        (case, observed)
    };
    cases.iter().map(step).collect()
}

/// The first call in which the side differs from the original's client, and in what. Where the original's timing was observed after
/// the last call alone, it is left out before.
pub fn difference(
    right: &[Observed],
    other: &[(Case, Observed)],
    each: bool,
) -> Option<(usize, Vec<&'static str>)> {
    let last = right.len() - 1;
    let calls = right.iter().zip(other).enumerate();
    calls
        .map(|(at, (right, (case, other)))| {
            let mut right = right.clone();
            if !each && at < last {
                right.timing = other.timing;
            }
            (at, differences(case, &right, other))
        })
        .find(|(_, fields)| !fields.is_empty())
}

/// So many sequences; of every second one the timing is observed after each call.
pub fn drawn(seed: u64, count: usize, visit: &mut dyn FnMut(&[Case], bool)) {
    let mut each = false;
    on_one_client(&mut Rng::new(seed), count, &mut |cases| {
        each = !each;
        visit(cases, each);
    });
}

/// In how many of some sequences it is noticed that a side does not carry the timing, and in how many that it does.
pub fn noticed(side: Side, seed: u64) -> [usize; 2] {
    let mut original = Original::default();
    let mut found = [0; 2];
    drawn(seed, 2000, &mut |cases, each| {
        let right = original.run_all(cases, each);
        for (found, carries) in found.iter_mut().zip([false, true]) {
            let other = on_side(side, cases, carries);
            *found += difference(&right, &other, each).is_some() as usize;
        }
    });
    found
}

/// What the sequences had in them.
#[derive(Default)]
struct Tally {
    by_length: [usize; 6],
    calls: usize,
    each: usize,
    /// By server timing: off, on.
    sequences: [usize; 2],
    with_session: [usize; 2],
    /// Calls that began with another timing than the client's first.
    adopted: usize,
    /// Of these, by which client: plain, suppressed.
    by_client: [usize; 2],
    failed: usize,
}

impl Tally {
    fn count(&mut self, given: &[(Case, Observed)], each: bool) {
        let first = given[0].0.setting;
        let server = first.server_timing as usize;
        self.by_length[given.len()] += 1;
        self.calls += given.len();
        self.each += each as usize;
        self.sequences[server] += 1;
        let session = |(case, _): &(Case, Observed)| case.call.number() == 1;
        self.with_session[server] += given.iter().any(session) as usize;
        for (case, _) in given {
            let setting = case.setting;
            if (setting.p2, setting.p2_star) != (first.p2, first.p2_star) {
                self.adopted += 1;
                self.by_client[setting.quiet as usize] += 1;
            }
        }
    }

    fn print(&self) {
        for (length, count) in self.by_length.iter().enumerate().skip(2) {
            println!("  {count:>10}  sequences of {length} calls");
        }
        println!(
            "{} calls; timing observed after each call of {} sequences, after the last one of the others.",
            self.calls, self.each
        );
        println!(
            "Server timing on: {} sequences, {} with call 1; off: {}, {} with call 1.",
            self.sequences[1], self.with_session[1], self.sequences[0], self.with_session[0]
        );
        println!(
            "{} calls began with a timing that an earlier call set: {} of the plain client, {} of the suppressed one.",
            self.adopted, self.by_client[0], self.by_client[1]
        );
    }

    /// What no sequence had.
    fn is_thin(&self) -> bool {
        let counts = [self.with_session, self.by_client].concat();
        self.by_length[2..].contains(&0) || counts.contains(&0)
    }
}

/// The command `sequences`.
pub fn sequences(side: Side, seed: u64) -> Result<usize, String> {
    let mut original = Original::default();
    let mut tally = Tally::default();
    drawn(seed, SEQUENCES, &mut |cases, each| {
        let right = original.run_all(cases, each);
        let other = on_side(side, cases, true);
        tally.count(&other, each);
        if let Some((at, fields)) = difference(&right, &other, each) {
            tally.failed += 1;
            if tally.failed <= SHOWN {
                let fields = fields.join(", ");
                println!("Mismatch in call {} of {}: {fields}", at + 1, cases.len());
                for (right, (case, other)) in right.iter().zip(&other).take(at + 1) {
                    show(case, right, other);
                }
            }
        }
    });
    tally.print();
    if tally.is_thin() {
        return Err("A kind of sequence has no case.".to_string());
    }
    println!(
        "{} passed, {} failed",
        SEQUENCES - tally.failed,
        tally.failed
    );
    Ok(tally.failed)
}
