//! Mutants of a copy of the original, all in one build: a number says which of them is at work. `oracle/mutants` makes the copy.

use crate::compare::{differences, has_counterpart, Side};
use crate::model::{Case, Observed};
use crate::original::Original;
use crate::rng::Rng;
use crate::{sample, sequences};
use std::sync::atomic::{AtomicUsize, Ordering};
use std::thread;
use std::time::Duration;

/// Which mutant runs, and how many cases have been run of all of them, for the watch.
static RUNNING: AtomicUsize = AtomicUsize::new(0);
static CASES: AtomicUsize = AtomicUsize::new(0);

/// A case that takes longer than this does not end.
const LONGEST: Duration = Duration::from_secs(20);

/// The status of a run that met a mutant which does not end. The line before says which.
const ENDLESS: i32 = 3;

fn watch() {
    let mut before = (0, 0);
    loop {
        thread::sleep(LONGEST);
        let now = (RUNNING.load(Ordering::SeqCst), CASES.load(Ordering::SeqCst));
        if now == before && now.0 != 0 {
            println!("{} endless", now.0);
            std::process::exit(ENDLESS);
        }
        before = now;
    }
}

/// What a mutant is run on, with what is right: single cases in an order without pattern, then sequences on one client.
struct Slice {
    cases: Vec<(Case, Observed)>,
    sequences: Vec<(Vec<Case>, Vec<(Case, Observed)>, bool)>,
}

impl Slice {
    fn drawn(side: Side, seed: u64, of_each: usize, sequences: usize) -> Slice {
        let mut cases = sample::sample(seed, of_each, |case, _| has_counterpart(case));
        let mut rng = Rng::new(seed);
        for at in (1..cases.len()).rev() {
            cases.swap(at, rng.below(at + 1));
        }
        let judged = |case: Case| {
            let observed = side(&case);
            (case, observed)
        };
        let mut slice = Slice {
            cases: cases.into_iter().map(judged).collect(),
            sequences: Vec::new(),
        };
        sequences::drawn(seed, sequences, &mut |cases, each| {
            let other = sequences::on_side(side, cases, true);
            slice.sequences.push((cases.to_vec(), other, each));
        });
        slice
    }

    /// After how many cases the mutant that is at work is noticed, and by what.
    fn noticed(&self) -> Option<(usize, String)> {
        let mut original = Original::default();
        let mut count = 0;
        for (case, other) in &self.cases {
            count += 1;
            CASES.fetch_add(1, Ordering::SeqCst);
            let fields = differences(case, &original.run(case), other);
            if !fields.is_empty() {
                return Some((count, fields.join(", ")));
            }
        }
        for (cases, other, each) in &self.sequences {
            count += 1;
            CASES.fetch_add(1, Ordering::SeqCst);
            let right = original.run_all(cases, *each);
            if let Some((_, fields)) = sequences::difference(&right, other, *each) {
                return Some((count, format!("a sequence, {}", fields.join(", "))));
            }
        }
        None
    }
}

/// The command `mutants`: of each number of a file its line: `N noticed AFTER FIELDS`, `N alive` or `N endless`. Number 0 is the
/// original as it is, and must be alive.
pub fn mutants(side: Side, numbers: &str, of_each: &str, count: &str) -> Result<usize, String> {
    let number = |word: &str| {
        let number: Result<usize, _> = word.parse();
        number.map_err(|_| format!("{word} is no number."))
    };
    let text = std::fs::read_to_string(numbers)
        .map_err(|error| format!("{numbers} cannot be read: {error}."))?;
    let slice = Slice::drawn(side, 1, number(of_each)?, number(count)?);
    println!("slice {} {}", slice.cases.len(), slice.sequences.len());
    thread::spawn(watch);
    for word in ["0"].into_iter().chain(text.split_whitespace()) {
        let mutant = number(word)?;
        automotive::mutant::choose(mutant);
        RUNNING.store(mutant, Ordering::SeqCst);
        match slice.noticed() {
            Some((after, fields)) => println!("{mutant} noticed {after} {fields}"),
            None => println!("{mutant} alive"),
        }
    }
    Ok(0)
}
