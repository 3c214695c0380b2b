//! A sample of the generated cases that has something of every kind, however rare: so many cases for each kind, drawn
//! evenly from all of that kind.

use crate::direct::{self, Verdict};
use crate::generate::GENERATORS;
use crate::model::{Case, Memory};
use crate::rng::Rng;
use std::collections::BTreeMap;

/// What makes a case a kind of its own.
#[derive(PartialEq, Eq, PartialOrd, Ord)]
struct Kind {
    generator: usize,
    call: u8,
    strict: bool,
    suppressing: bool,
    overall: bool,
    outcome: u8,
    /// The number of a deviation or a refusal.
    number: u8,
    /// Deviation 8's minimum, as far as small ones differ.
    minimum: usize,
    /// The size is above 2^64 - 1.
    wide: bool,
}

impl Kind {
    /// Outcomes that few cases have, so that each kind gets more places: deviations after the positive, overflow, refusals.
    fn is_rare(&self) -> bool {
        matches!((self.outcome, self.number), (6, 5..=7 | 9..) | (8, _) | (9, 1..=8))
    }
}

fn kind(generator: usize, case: &Case) -> Kind {
    let mut minimum = 0;
    let (outcome, number) = match direct::call(case, &mut [0; 4095]).verdict {
        Verdict::Positive => (0, 0),
        Verdict::Suppressed => (1, 0),
        Verdict::Negative(_) => (2, 0),
        Verdict::Timeout => (3, 0),
        Verdict::Disconnected => (4, 0),
        Verdict::Transport(_) => (5, 0),
        Verdict::Deviation(number) => (6, number),
        Verdict::Bounds((least, _)) => {
            minimum = least.min(7);
            (6, 8)
        }
        Verdict::Length => (7, 0),
        Verdict::Overflow => (8, 0),
        Verdict::Refused(number) => (9, number),
        Verdict::PendingLimit => (10, 0),
    };
    Kind {
        generator,
        call: case.call.number(),
        strict: case.setting.strict,
        suppressing: case.suppressing(),
        overall: case.setting.overall.is_some(),
        outcome,
        number,
        minimum,
        wide: match case.call.memory() {
            Some(Memory::Bytes { size, .. }) => size.iter().rev().skip(8).any(|&byte| byte != 0),
            _ => false,
        },
    }
}

/// Up to `of_each` cases of each kind, more of the rare, of those that are wanted.
pub fn sample(seed: u64, of_each: usize, wanted: fn(&Case, &mut Rng) -> bool) -> Vec<Case> {
    let mut kept: BTreeMap<Kind, (usize, Vec<Case>)> = BTreeMap::new();
    let mut draw = Rng::new(seed);
    for (at, generator) in GENERATORS.iter().enumerate() {
        (generator.run)(&mut generator_rng(seed, at), &mut |case| {
            if !wanted(case, &mut draw) {
                return;
            }
            let kind = kind(at, case);
            let places = if kind.is_rare() { 4 * of_each } else { of_each };
            let (seen, cases) = kept.entry(kind).or_default();
            *seen += 1;
            if cases.len() < places {
                cases.push(case.clone());
            } else {
                let place = draw.below(*seen);
                if place < places {
                    cases[place].clone_from(case);
                }
            }
        });
    }
    kept.into_values().flat_map(|(_, cases)| cases).collect()
}

/// The numbers that a generator starts from, the same wherever it runs.
pub fn generator_rng(seed: u64, generator: usize) -> Rng {
    Rng::new(seed ^ (generator as u64) << 32)
}
