//! Document 02's engine that is handed one event at a time, which the original does not have. What it decides in the end is right if
//! it is what the original does with the whole list; what it says on the way is worked out by asking the direct program for
//! the list of the events that were taken so far: where that ends in silence, the engine waits until then.

use crate::compare::{differences, has_counterpart, Side, SHOWN};
use crate::direct::{self, Verdict};
use crate::foreign;
use crate::generate::{self, GENERATORS};
use crate::model::{Case, Event, Observed, END, ERROR, IDLE, REPLY};
use crate::original::Original;
use crate::rng::Rng;
use crate::sample::{self, generator_rng};
use crate::{lines, log};
use std::collections::BTreeMap;

/// How many cases of waiting there are beside the generators', and of these for the faults.
const WAITING: usize = 200_000;
const FOR_FAULTS: usize = 20_000;

#[derive(Debug, Clone, Copy, PartialEq, Eq)]
pub enum Step {
    Event(Event),
    Tick(u64),
}

/// What an engine knows while it waits.
#[derive(Debug, Clone, Copy, PartialEq, Eq)]
pub struct Waits {
    pub deadline: u64,
    pub events: usize,
    pub notices: usize,
    /// The time of the last step that was taken.
    pub last: u64,
}

/// What an engine says to a step, or as it begins: the refusal, or 0, and what it knows, unless it has settled.
#[derive(Debug, Clone, Copy, PartialEq, Eq)]
pub struct Said {
    pub refusal: u8,
    pub waits: Option<Waits>,
}

/// What an engine did with a case and steps.
#[derive(Debug, Clone)]
pub struct Run {
    /// As it began, and after each step.
    pub said: Vec<Said>,
    /// What it decided, if it has settled.
    pub decided: Option<Observed>,
    /// Each step that was refused left everything as it was, and the decision stayed.
    pub steady: bool,
}

/// An engine: it takes call, setting and reply bytes of a case, and the steps in place of its events.
pub type Stepper = fn(&Case, &[Step]) -> Run;

/// What settled a call.
#[derive(Debug, Clone, Copy, PartialEq, Eq, PartialOrd, Ord)]
enum By {
    Begin,
    Event,
    LateEvent,
    EventPastOverall,
    Tick,
    TickPastOverall,
}

const WAYS: [(By, &str); 6] = [
    (By::Begin, "a refused call"),
    (By::Event, "an event in time"),
    (By::LateEvent, "an event past the deadline"),
    (By::EventPastOverall, "an event past T, before the deadline"),
    (By::Tick, "a tick past the deadline"),
    (By::TickPastOverall, "a tick past T, before the deadline"),
];

/// What is right to say, step by step.
struct Model {
    /// The events taken so far.
    taken: Case,
    last: u64,
    waits: Option<Waits>,
    by: Option<By>,
}

impl Model {
    fn begin(case: &Case) -> Model {
        let mut taken = case.clone();
        taken.events.clear();
        let mut model = Model {
            taken,
            last: 0,
            waits: None,
            by: None,
        };
        model.look(By::Begin);
        model
    }

    /// Whether the events taken end in silence, and then until when; else they were settled so.
    fn look(&mut self, by: By) {
        let overall = self.taken.setting.overall.take();
        let answer = direct::call(&self.taken, &mut [0; 4095]);
        self.taken.setting.overall = overall;
        let silent = matches!(answer.verdict, Verdict::Timeout | Verdict::Suppressed);
        self.waits = silent.then_some(Waits {
            deadline: answer.time,
            events: answer.events,
            notices: answer.notices,
            last: self.last,
        });
        if !silent {
            self.by = Some(by);
        }
    }

    /// Past the deadline, or past T, "not at it", no event is in time.
    fn is_late(&mut self, deadline: u64, time: u64, by: [By; 2]) -> bool {
        let overall = self.taken.setting.overall.map_or(u64::MAX, u64::from);
        if time <= deadline && time <= overall {
            return false;
        }
        self.waits = None;
        self.by = Some(by[(time <= deadline) as usize]);
        true
    }

    /// "order 21, 10, 20"
    fn step(&mut self, step: Step) -> u8 {
        let Some(Waits { deadline, .. }) = self.waits else {
            return 21;
        };
        let time = match step {
            Step::Tick(now) => now,
            Step::Event(event) => {
                let full = self.taken.events.len() >= 512;
                if full || !direct::sound_events(&[event], &self.taken.replies) {
                    return 10;
                }
                event.time.into()
            }
        };
        if time < self.last {
            return 20;
        }
        self.last = time;
        match step {
            Step::Tick(_) => {
                if !self.is_late(deadline, time, [By::Tick, By::TickPastOverall]) {
                    self.waits = self.waits.map(|waits| Waits {
                        last: time,
                        ..waits
                    });
                }
            }
            Step::Event(event) => {
                self.taken.events.push(event);
                if !self.is_late(deadline, time, [By::LateEvent, By::EventPastOverall]) {
                    self.look(By::Event);
                }
            }
        }
        0
    }

    fn said(&self, refusal: u8) -> Said {
        Said {
            refusal,
            waits: self.waits,
        }
    }

    /// The model after all steps, and what it said.
    fn run(case: &Case, steps: &[Step]) -> (Model, Vec<Said>) {
        let mut model = Model::begin(case);
        let mut said = vec![model.said(0)];
        for &step in steps {
            let refusal = model.step(step);
            said.push(model.said(refusal));
        }
        (model, said)
    }
}

/// The direct program, one event at a time.
pub fn direct(case: &Case, steps: &[Step]) -> Run {
    let (model, said) = Model::run(case, steps);
    Run {
        said,
        decided: model.by.map(|_| direct::run(&model.taken)),
        steady: true,
    }
}

/// A time for a tick from `now` up to `next`: where something ends, and around it.
fn tick_time(rng: &mut Rng, case: &Case, now: u64, next: u64) -> u64 {
    let setting = &case.setting;
    let p2 = u64::from(setting.p2);
    let star = u64::from(setting.p2_star);
    let overall = setting.overall.map_or(p2, u64::from);
    let soon = now.saturating_add(rng.below(60) as u64);
    let near = rng.pick(&[now, next, p2, overall, now.saturating_add(star), soon]);
    let near = rng.pick(&[near, near.saturating_sub(1), near.saturating_add(1)]);
    near.clamp(now, next)
}

/// A step that is refused whenever it comes behind `now`: an event that breaks a limit, or going back.
fn disturbance(rng: &mut Rng, case: &Case, now: u64) -> Step {
    let any = rng.below(100) as u64;
    let time = rng.pick(&[now, now.saturating_add(any), now.saturating_sub(any), any]);
    let outside = case.replies.len() as u16;
    let event = Event {
        time: u32::try_from(time).unwrap_or(u32::MAX),
        kind: IDLE,
        offset: 0,
        length: 0,
        source: 0,
    };
    let bad = match rng.below(6) {
        0 => Event {
            kind: rng.pick(&[4, 9, 256, 65535]),
            ..event
        },
        1 => Event {
            kind: rng.pick(&[IDLE, END, ERROR]),
            source: rng.pick(&[1, 0x7e8, 0xffff]),
            ..event
        },
        2 => Event {
            kind: REPLY,
            offset: outside,
            length: 1,
            source: case.listens(),
            ..event
        },
        3 => Event {
            kind: REPLY,
            length: 4096,
            ..event
        },
        back if now > 0 => {
            let time = now - 1 - rng.below((now as usize).min(3)) as u64;
            return match u32::try_from(time) {
                Ok(time) if back == 4 => Step::Event(Event { time, ..event }),
                _ => Step::Tick(time),
            };
        }
        _ => Event { kind: 4, ..event },
    };
    Step::Event(bad)
}

/// The events of a case with ticks among them, in time order, and steps that are refused; a tick past everything ends them. If not
/// `in_order`, ticks may run ahead of the events.
fn merged(rng: &mut Rng, case: &Case, in_order: bool) -> Vec<Step> {
    let mut steps = Vec::new();
    let mut now = 0;
    // Of long lists only some events have ticks before them.
    let sparse = 1 + case.events.len() / 8;
    for at in 0..=case.events.len() {
        let event = case.events.get(at);
        let next = event.map_or(u64::MAX, |event| event.time.into());
        if rng.once_in(sparse) {
            for _ in 0..rng.below(3) {
                let ahead = !in_order && rng.once_in(4);
                let most = if ahead { u64::MAX } else { next.max(now) };
                now = tick_time(rng, case, now, most);
                steps.push(Step::Tick(now));
            }
            if rng.once_in(3) {
                steps.push(disturbance(rng, case, now));
            }
        }
        if let Some(&event) = event {
            now = now.max(next);
            steps.push(Step::Event(event));
        }
    }
    steps.push(Step::Tick(u64::MAX));
    if rng.once_in(4) {
        steps.push(disturbance(rng, case, now));
        steps.push(Step::Tick(rng.pick(&[0, now, u64::MAX])));
    }
    steps
}

/// A run with what is right for it: what is said, what settled it, and the list with what the original does with it.
struct Judged {
    case: Case,
    steps: Vec<Step>,
    said: Vec<Said>,
    by: By,
    listed: Case,
    right: Observed,
}

/// Steps of a case, judged, if they settle it. In order it is the whole list that counts; where this is refused, or a tick ran
/// ahead, the events that were taken.
fn judged(original: &mut Original, case: Case, steps: Vec<Step>, in_order: bool) -> Option<Judged> {
    let (model, said) = Model::run(&case, &steps);
    let listed = if in_order && has_counterpart(&case) {
        case.clone()
    } else {
        model.taken
    };
    let right = foreign::right(original, &listed);
    Some(Judged {
        case,
        steps,
        said,
        by: model.by?,
        listed,
        right,
    })
}

/// The run with as few steps as it can have and still be wrong.
fn fewest(original: &mut Original, run: Judged, is_wrong: &dyn Fn(&Judged) -> bool) -> Judged {
    let without = |original: &mut Original, run: &Judged, at: usize| {
        let (mut case, mut steps) = (run.case.clone(), run.steps.clone());
        steps.remove(at);
        case.events.clear();
        judged(original, case, steps, false)
    };
    let mut least = run;
    while let Some(fewer) = (0..least.steps.len())
        .filter_map(|at| without(original, &least, at))
        .find(is_wrong)
    {
        least = fewer;
    }
    least
}

/// A generated case, plain, with addresses or with foreign replies, under a limit once in a while, and its steps.
fn drawn(original: &mut Original, rng: &mut Rng, case: &Case) -> Judged {
    let mut case = match rng.below(3) {
        0 => case.clone(),
        1 => generate::addressed(rng, case),
        _ => {
            let ours = generate::addressed(rng, case);
            generate::mixed(rng, &ours)
        }
    };
    if rng.once_in(4) {
        case.setting.limit = Some(rng.pick(&[0, 1, 2, 255]));
    }
    if rng.once_in(16) {
        // Behind a notice the deadline passes 32 bits.
        case.setting.p2_star = u32::MAX - rng.below(2) as u32;
    }
    let in_order = !rng.once_in(4);
    let steps = merged(rng, &case, in_order);
    judged(original, case, steps, in_order).expect("a tick past everything settles")
}

/// The names of what differs between a run and what is right for it.
fn wrong(judged: &Judged, run: &Run) -> Vec<&'static str> {
    let mut fields = Vec::new();
    let mut field = |name, same: bool| {
        if !same {
            fields.push(name);
        }
    };
    let pairs = || judged.said.iter().zip(&run.said);
    let all = |same: fn(&Said, &Said) -> bool| pairs().all(|(one, other)| same(one, other));
    field("number of steps", judged.said.len() == run.said.len());
    field("refusal of a step", all(|x, y| x.refusal == y.refusal));
    field(
        "whether it waits",
        all(|x, y| x.waits.is_some() == y.waits.is_some()),
    );
    field(
        "what it knows while it waits",
        all(|x, y| match (x.waits, y.waits) {
            (Some(x), Some(y)) => x == y,
            _ => true,
        }),
    );
    field("a refused step changed something", run.steady);
    match &run.decided {
        None => field("a decision", false),
        Some(decided) => fields.extend(differences(&judged.listed, &judged.right, decided)),
    }
    fields
}

fn show(judged: &Judged, run: &Run) {
    println!("  {:x?}", judged.case);
    let begin = std::iter::once("begin".to_string());
    let steps = begin.chain(judged.steps.iter().map(|step| format!("{step:x?}")));
    for (at, step) in steps.enumerate() {
        let said = |said: &[Said]| format!("{:?}", said.get(at));
        println!(
            "  {step}: right {}, other {}",
            said(&judged.said),
            said(&run.said)
        );
    }
    println!("  right    {:x?}", judged.right);
    println!("  other    {:x?}", run.decided);
}

/// What a comparison covered.
#[derive(Default)]
struct Tally {
    runs: usize,
    failed: usize,
    steps: usize,
    by_way: BTreeMap<By, usize>,
    by_outcome: BTreeMap<&'static str, usize>,
    by_refusal: BTreeMap<(bool, u8), usize>,
    by_call: [usize; 16],
    by_mode: BTreeMap<(bool, bool, bool, bool), usize>,
    at_the_end: usize,
    wide: usize,
    full: usize,
    early: usize,
}

impl Tally {
    fn count(&mut self, judged: &Judged) {
        let Judged {
            case,
            steps,
            said,
            by,
            right,
            ..
        } = judged;
        self.runs += 1;
        self.steps += steps.len();
        *self.by_way.entry(*by).or_default() += 1;
        *self.by_outcome.entry(right.outcome.word()).or_default() += 1;
        self.by_call[case.call.number() as usize] += 1;
        let setting = &case.setting;
        let mode = (
            setting.strict,
            case.suppressing(),
            setting.overall.is_some(),
            setting.limit.is_some(),
        );
        *self.by_mode.entry(mode).or_default() += 1;
        for (step, said) in steps.iter().zip(&said[1..]) {
            let is_event = matches!(step, Step::Event(_));
            *self.by_refusal.entry((is_event, said.refusal)).or_default() += 1;
            if let (Step::Tick(now), Some(waits)) = (step, said.waits) {
                self.at_the_end += (waits.deadline == *now) as usize;
                self.wide += (*now > u32::MAX.into() && said.refusal == 0) as usize;
            }
            self.full += (said.refusal == 10 && said.waits.is_some_and(|waits| waits.events == 512))
                as usize;
        }
        let settling = said.iter().position(|said| said.waits.is_none());
        if let (By::Event, Some(at)) = (by, settling) {
            if let Step::Event(event) = steps[at - 1] {
                self.early += (right.time > event.time.into()) as usize;
            }
        }
    }

    fn print(&self) {
        println!("Settled by:");
        for (way, name) in WAYS {
            println!("  {:>10}  {name}", self.by_way.get(&way).unwrap_or(&0));
        }
        println!("By outcome:");
        for (word, count) in &self.by_outcome {
            println!("  {count:>10}  {word}");
        }
        println!("Steps by what they are answered:");
        for (&(is_event, refusal), count) in &self.by_refusal {
            let name = if is_event { "event" } else { "tick" };
            println!("  {count:>10}  {name} {refusal}");
        }
        println!("By call:");
        for (call, count) in self.by_call.iter().enumerate() {
            println!("  {count:>10}  call {call}");
        }
        println!("By mode:");
        for (&(strict, suppressing, overall, limit), count) in &self.by_mode {
            let mode = if strict { "strict" } else { "lenient" };
            let bit_7 = if suppressing { ", bit 7 set" } else { "" };
            let overall = if overall { ", with T" } else { "" };
            let limit = if limit { ", with a limit" } else { "" };
            println!("  {count:>10}  {mode}{bit_7}{overall}{limit}");
        }
        println!(
            "{} steps. A tick at the deadline did not settle {} times, and one of more than 32 bits {} times; an event behind \
             512 was refused {} times; an event settled a call that finishes later {} times.",
            self.steps, self.at_the_end, self.wide, self.full, self.early
        );
    }

    /// What must not be missing.
    fn is_whole(&self) -> bool {
        let refusals = [
            (true, 0),
            (true, 10),
            (true, 20),
            (true, 21),
            (false, 0),
            (false, 20),
            (false, 21),
        ];
        let outcomes = 11;
        WAYS.iter().all(|(way, _)| self.by_way.contains_key(way))
            && refusals
                .iter()
                .all(|refusal| self.by_refusal.contains_key(refusal))
            && self.by_refusal.len() == refusals.len()
            && self.by_outcome.len() == outcomes
            && self.by_call.iter().all(|&count| count > 0)
            && self.by_mode.len() == 16
            && [self.at_the_end, self.wide, self.full, self.early]
                .iter()
                .all(|&count| count > 0)
    }
}

/// The numbers that choose the steps of a generator's cases.
fn step_rng(seed: u64, generator: usize) -> Rng {
    generator_rng(seed, 3 * GENERATORS.len() + generator)
}

/// The command `steps`: an engine on the generated cases but those of every short reply, and on cases of waiting, one event at a
/// time with ticks between. `side` is the list engine beside it: in order both must decide the same.
pub fn steps(stepper: Stepper, side: Side, seed: u64) -> Result<usize, String> {
    let mut original = Original::default();
    let mut tally = Tally::default();
    let differing = |judged: &Judged| {
        let run = stepper(&judged.case, &judged.steps);
        let mut fields = wrong(judged, &run);
        if run.decided != Some(side(&judged.listed)) {
            fields.push("the list engine's answer");
        }
        fields
    };
    let mut try_one = |rng: &mut Rng, case: &Case| {
        let judged = drawn(&mut original, rng, case);
        tally.count(&judged);
        let fields = differing(&judged);
        if !fields.is_empty() {
            tally.failed += 1;
            if tally.failed <= SHOWN {
                println!("Mismatch: {}", fields.join(", "));
                let least = fewest(&mut original, judged, &|run| !differing(run).is_empty());
                show(&least, &stepper(&least.case, &least.steps));
            }
        }
    };
    for (at, generator) in GENERATORS.iter().enumerate().skip(2) {
        let mut rng = step_rng(seed, at);
        (generator.run)(&mut generator_rng(seed, at), &mut |case| {
            try_one(&mut rng, case)
        });
    }
    let mut rng = step_rng(seed, 0);
    let mut draw = generator_rng(seed, GENERATORS.len());
    generate::waiting(&mut draw, WAITING, &mut |case| try_one(&mut rng, case));
    tally.print();
    if !tally.is_whole() {
        return Err(
            "A way to settle, an outcome, a refusal, a call or a mode has no run.".to_string(),
        );
    }
    println!(
        "{} passed, {} failed",
        tally.runs - tally.failed,
        tally.failed
    );
    Ok(tally.failed)
}

/// A fault in what an engine is handed. It may go by what is right to say before and after a step.
pub struct Fault {
    pub name: &'static str,
    put_in: fn(&mut Case, &mut [Step], &[Said]),
}

/// Changes each tick for which an engine waits, before it and behind it.
fn each_tick(steps: &mut [Step], said: &[Said], change: fn(&mut u64, Waits, Waits)) {
    for (step, said) in steps.iter_mut().zip(said.windows(2)) {
        if let (Step::Tick(now), Some(before), Some(after)) = (step, said[0].waits, said[1].waits) {
            change(now, before, after);
        }
    }
}

/// Changes each event that finds an engine waiting, by what it knows then and the refusal that is right.
fn each_event(steps: &mut [Step], said: &[Said], change: fn(&mut Event, Waits, u8)) {
    for (step, said) in steps.iter_mut().zip(said.windows(2)) {
        if let (Step::Event(event), Some(before)) = (step, said[0].waits) {
            change(event, before, said[1].refusal);
        }
    }
}

/// Each of these must be noticed.
pub const FAULTS: [Fault; 10] = [
    Fault {
        name: "a tick at the deadline says 1 ms more",
        put_in: |_, steps, said| {
            each_tick(steps, said, |now, _, after| {
                *now += (*now == after.deadline) as u64
            })
        },
    },
    Fault {
        name: "a tick says the time of the step before it",
        put_in: |_, steps, said| each_tick(steps, said, |now, before, _| *now = before.last),
    },
    Fault {
        name: "a tick says its time in 32 bits",
        put_in: |_, steps, _| {
            for step in steps {
                if let Step::Tick(now) = step {
                    *now = u64::from(*now as u32);
                }
            }
        },
    },
    Fault {
        name: "the last tick comes at the deadline",
        put_in: |_, steps, said| {
            let waiting = said.iter().rposition(|said| said.waits.is_some());
            if let Some((at, waits)) = waiting.and_then(|at| Some((at, said[at].waits?))) {
                steps[at] = Step::Tick(waits.deadline);
            }
        },
    },
    Fault {
        name: "an event past the deadline comes at it",
        put_in: |_, steps, said| {
            each_event(steps, said, |event, before, _| {
                event.time = before.deadline.min(event.time.into()) as u32
            })
        },
    },
    Fault {
        name: "an event that breaks a limit is an idle",
        put_in: |_, steps, said| {
            each_event(steps, said, |event, _, refusal| {
                if refusal == 10 {
                    (event.kind, event.source) = (IDLE, 0);
                }
            })
        },
    },
    Fault {
        name: "an event that goes back comes at the last step's time",
        put_in: |_, steps, said| {
            each_event(steps, said, |event, before, _| {
                event.time = before.last.max(event.time.into()) as u32
            })
        },
    },
    Fault {
        name: "each reply stands at the front of the lent bytes",
        put_in: |_, steps, said| each_event(steps, said, |event, _, _| event.offset = 0),
    },
    Fault {
        name: "each reply comes from address 0",
        put_in: |_, steps, said| each_event(steps, said, |event, _, _| event.source = 0),
    },
    Fault {
        name: "the overall timeout is left out of the steps",
        put_in: |case, _, _| case.setting.overall = None,
    },
];

/// Runs for the faults: cases of waiting, and some of each kind of every generator.
pub struct Runs(Vec<Judged>);

impl Runs {
    pub fn drawn(seed: u64) -> Runs {
        let mut original = Original::default();
        let mut rng = step_rng(seed, 0);
        let mut draw = generator_rng(seed, GENERATORS.len());
        let mut cases = sample::sample(seed, 1, |_, _| true);
        generate::waiting(&mut draw, FOR_FAULTS, &mut |case| cases.push(case.clone()));
        let run = |case| drawn(&mut original, &mut rng, case);
        Runs(cases.iter().map(run).collect())
    }

    pub fn len(&self) -> usize {
        self.0.len()
    }

    /// In how many runs something differs, and how often which field does, if the engine is handed them with a fault, or none.
    pub fn noticed(&self, stepper: Stepper, fault: Option<&Fault>) -> (usize, String) {
        let mut noticed = 0;
        let mut by_field: BTreeMap<&str, usize> = BTreeMap::new();
        for judged in &self.0 {
            let (mut case, mut steps) = (judged.case.clone(), judged.steps.clone());
            if let Some(fault) = fault {
                (fault.put_in)(&mut case, &mut steps, &judged.said);
            }
            let fields = wrong(judged, &stepper(&case, &steps));
            noticed += !fields.is_empty() as usize;
            for field in fields {
                *by_field.entry(field).or_default() += 1;
            }
        }
        let fields = by_field
            .iter()
            .map(|(field, count)| format!("{field} {count}"));
        (noticed, fields.collect::<Vec<_>>().join(", "))
    }
}

/// The command `runs`: the runs of a file in the form of `bindings/rust/tests/steps.rs`. What is said to be right is held to them,
/// and so is an engine.
pub fn runs(stepper: Stepper, path: &str) -> Result<usize, String> {
    let file = lines::file(path)?;
    let text = String::from_utf8(file).map_err(|_| format!("{path} is no text."))?;
    let (mut passed, mut failed) = (0, 0);
    let mut rest = text.lines().peekable();
    while let Some(line) = rest.next() {
        let mut case = logged(line).ok_or_else(|| format!("{path}: {line}: no log."))?;
        case.events.clear();
        let (mut steps, mut wanted) = (Vec::new(), Vec::new());
        while let Some(line) = rest.next_if(|line| !line.starts_with("log ")) {
            let (given, said) = line.split_once(" = ").unwrap_or_default();
            if given != "begin" {
                steps.push(step(given).ok_or_else(|| format!("{path}: {line}: no step."))?);
            }
            wanted.push(said);
        }
        for (name, engine) in [
            ("what is right", direct as Stepper),
            ("the engine", stepper),
        ] {
            let run = engine(&case, &steps);
            let decided = run.decided.as_ref().map(log::line).unwrap_or_default();
            let lines = run.said.iter().map(|said| match said.waits {
                Some(_) => format!("{} -", said.refusal),
                None => format!("{} {decided}", said.refusal),
            });
            if run.steady && lines.eq(wanted.iter().copied()) {
                passed += 1;
            } else {
                failed += 1;
                println!("{name}: {line}: {:?} {decided}", run.said);
            }
        }
    }
    println!("{passed} passed, {failed} failed");
    Ok(failed)
}

/// `log HEX K`
fn logged(line: &str) -> Option<Case> {
    let mut words = line.strip_prefix("log ")?.split(' ');
    let (hex, limit) = (words.next()?, words.next()?);
    let byte = |at| u8::from_str_radix(hex.get(at..at + 2)?, 16).ok();
    let log: Option<Vec<u8>> = (0..hex.len()).step_by(2).map(byte).collect();
    let mut case = log::read(&log?)?;
    case.setting.limit = match limit {
        "none" => None,
        limit => Some(limit.parse().ok()?),
    };
    Some(case)
}

/// `event TIME KIND OFFSET LENGTH SOURCE` or `tick NOW`
fn step(given: &str) -> Option<Step> {
    let (word, numbers) = given.split_once(' ')?;
    let numbers: Option<Vec<u64>> = numbers.split(' ').map(|word| word.parse().ok()).collect();
    match (word, &numbers?[..]) {
        ("tick", &[now]) => Some(Step::Tick(now)),
        ("event", &[time, kind, offset, length, source]) => Some(Step::Event(Event {
            time: time.try_into().ok()?,
            kind: kind.try_into().ok()?,
            offset: offset.try_into().ok()?,
            length: length.try_into().ok()?,
            source: source.try_into().ok()?,
        })),
        _ => None,
    }
}
