//! What a call costs: the original under its paused clock, the direct program and (where it is linked) the proved library
//! on the same cases in one run, repeated, with the spread of the ratios; of the proved library also one event at a time, and
//! single steps.

use crate::compare::has_counterpart;
use crate::generate::{good_reply, sample_calls, GENERATORS};
use crate::model::{Call, Case, Setting, IDLE};
use crate::original::Original;
use crate::rng::Rng;
use crate::sample::generator_rng;
use crate::{direct, direct_line, lined, log};
use clock::thread_time;
use std::hint::black_box;

const ROUNDS: usize = 9;

/// A side that is measured, and one pass of it over the cases.
struct Engine<'c> {
    name: &'static str,
    pass: Box<dyn FnMut() + 'c>,
}

/// The original comes first and the direct program second: the ratios are to these.
fn engines(cases: &[Case]) -> Vec<Engine<'_>> {
    let mut original = Original::default();
    let mut buffer = [0; 4095];
    let engines = vec![
        Engine {
            name: "original",
            pass: Box::new(move || {
                for case in cases {
                    black_box(original.run_alone(black_box(case)));
                }
            }),
        },
        Engine {
            name: "direct",
            pass: Box::new(move || {
                for case in cases {
                    black_box(direct::call(black_box(case), &mut buffer));
                }
            }),
        },
    ];
    #[cfg(feature = "proved")]
    let engines = {
        let prepared: Vec<_> = cases.iter().map(crate::proved::prepare).collect();
        let again: Vec<_> = cases.iter().map(crate::proved::prepare).collect();
        let proved = Engine {
            name: "proved",
            pass: Box::new(move || {
                for case in &prepared {
                    black_box(crate::proved::call(black_box(case), &mut buffer));
                }
            }),
        };
        let steps = Engine {
            name: "by steps",
            pass: Box::new(move || {
                for case in &again {
                    black_box(crate::proved::stepped(black_box(case), &mut buffer));
                }
            }),
        };
        engines.into_iter().chain([proved, steps]).collect()
    };
    engines
}

/// The same from a log's bytes to its line. A log with a refusal that the original does not have is none of these.
fn liners(logs: &[Vec<u8>]) -> Vec<Engine<'_>> {
    let mut original = Original::default();
    let mut engines = vec![Engine {
        name: "original",
        pass: Box::new(move || {
            for log in logs {
                black_box(lined::by_original(&mut original, black_box(log)));
            }
        }),
    }];
    for name in ["direct", "proved"] {
        if let Ok(line) = lined::liner(name) {
            let mut buffer = [0; direct_line::LONGEST];
            let pass = move || {
                for log in logs {
                    black_box(line(black_box(log), black_box(&mut buffer)));
                }
            };
            engines.push(Engine {
                name,
                pass: Box::new(pass),
            });
        }
    }
    engines
}

/// Nanoseconds of one pass, over enough passes to take some milliseconds.
fn measure(engine: &mut Engine) -> f64 {
    let mut passes = 1;
    loop {
        let begin = thread_time();
        for _ in 0..passes {
            (engine.pass)();
        }
        let taken = thread_time() - begin;
        if taken.as_millis() >= 20 {
            return taken.as_nanos() as f64 / passes as f64;
        }
        passes *= 4;
    }
}

/// Least, middle and most of some numbers.
fn spread(mut numbers: Vec<f64>) -> (f64, f64, f64) {
    numbers.sort_by(f64::total_cmp);
    let last = numbers.len() - 1;
    (numbers[0], numbers[last / 2], numbers[last])
}

fn report(name: &str, cases: &[Case]) {
    alternate(name, cases.len(), engines(cases));
}

fn report_lines(name: &str, logs: &[Vec<u8>]) {
    alternate(&format!("{name}, from log to line"), logs.len(), liners(logs));
}

/// Measures all engines on the same cases, in turn, several times.
fn alternate(name: &str, cases: usize, mut engines: Vec<Engine>) {
    let mut taken: Vec<Vec<f64>> = vec![Vec::new(); engines.len()];
    for _ in 0..ROUNDS {
        for (engine, taken) in engines.iter_mut().zip(&mut taken) {
            taken.push(measure(engine) / cases as f64);
        }
    }
    println!("{name}:");
    for (engine, own) in engines.iter().zip(&taken) {
        let (least, middle, most) = spread(own.clone());
        let name = engine.name;
        print!("  {name:<9}{middle:>9.0} ns ({least:.0} to {most:.0})");
        for (other, base) in [("original", &taken[0]), ("direct", &taken[1])] {
            if other != name {
                let ratios = own.iter().zip(base).map(|(own, base)| own / base);
                let (low, mid, high) = spread(ratios.collect());
                print!("; {mid:.4} of the {other}'s ({low:.4} to {high:.4})");
            }
        }
        println!();
    }
}

/// Nanoseconds of single steps, each taken by a copy of an engine: making the copy comes first, and is in the others but begin.
#[cfg(feature = "proved")]
fn single_steps() {
    use crate::proved::{begin, prepare};
    use bintrochis::{Engine as Steps, Event};
    const WAIT: [u8; 3] = [0x7f, 0x22, 0x78];
    const GOOD: [u8; 4] = [0x62, 0xf1, 0x90, 0x41];
    fn tick(engine: &mut Steps, now: u64) {
        let _ = black_box(engine.tick(black_box(now)));
    }
    fn hand(engine: &mut Steps, event: Event, replies: &[u8]) {
        let _ = black_box(engine.event(black_box(event), black_box(replies)));
    }
    let case = Case::new(Call::ReadIdentifier { id: 0xf190 }, Setting::default());
    let prepared = prepare(&case);
    let (mut buffer, mut other) = ([0; 4095], [0; 4095]);
    let waiting = begin(&prepared, &mut buffer);
    let mut settled = waiting.clone();
    tick(&mut settled, u64::MAX);
    let steps: [(&str, &Steps, fn(&mut Steps)); 7] = [
        ("a copy of the state", &waiting, |_| {}),
        ("a tick, still waiting", &waiting, |x| tick(x, 20)),
        ("a tick that settles", &waiting, |x| tick(x, 51)),
        ("an idle event", &waiting, |x| hand(x, Event::idle(20), &[])),
        ("a wait notice", &waiting, |x| {
            hand(x, Event::reply(20, 0, 3, 0), &WAIT)
        }),
        ("a positive that settles", &waiting, |x| {
            hand(x, Event::reply(20, 0, 4, 0), &GOOD)
        }),
        ("a step behind settling", &settled, |x| tick(x, 52)),
    ];
    println!("Single steps:");
    let say = |name, pass: Box<dyn FnMut() + '_>| {
        let mut engine = Engine { name, pass };
        let taken = (0..ROUNDS).map(|_| measure(&mut engine)).collect();
        let (least, middle, most) = spread(taken);
        println!("  {name:<24}{middle:>9.1} ns ({least:.1} to {most:.1})");
    };
    for (name, from, step) in steps {
        let pass = move || {
            let mut engine = black_box(from).clone();
            step(&mut engine);
            black_box(&engine);
        };
        say(name, Box::new(pass));
    }
    let pass = move || {
        let _ = black_box(begin(black_box(&prepared), &mut other));
    };
    say("begin", Box::new(pass));
}

/// Idle events and then a positive: the exchange reads all of them.
fn idles(count: usize) -> Case {
    let mut case = Case::new(Call::ReadIdentifier { id: 0xf190 }, Setting::default());
    for at in 1..count {
        case.event((at * 40 / count) as u32, IDLE, 0);
    }
    case.reply(45, &[0x62, 0xf1, 0x90, 0x41]);
    case
}

/// Notices, each at a time of its own, and then a positive.
fn notices(count: usize) -> Case {
    let mut case = Case::new(Call::ReadIdentifier { id: 0xf190 }, Setting::default());
    for at in 1..count {
        case.reply(at as u32, &[0x7f, 0x22, 0x78]);
    }
    case.reply(600, &[0x62, 0xf1, 0x90, 0x41]);
    case
}

/// The sound logs of a file that have a counterpart in the original.
fn logged(path: &str) -> Result<Vec<Case>, String> {
    let file = std::fs::read(path).map_err(|error| format!("{path} cannot be read: {error}."))?;
    let cases = log::split(&file)?.into_iter().filter_map(log::read);
    Ok(cases.filter(has_counterpart).collect())
}

/// The command.
pub fn time(seed: u64, logs: Option<&str>) -> Result<usize, String> {
    println!(
        "Each line: nanoseconds a case of the thread's own time, the middle of {ROUNDS} rounds (the least to the most)."
    );
    if let Some(path) = logs {
        let cases = logged(path)?;
        let bytes: Vec<_> = cases.iter().filter_map(log::write).collect();
        report_lines(&format!("{} logs of {path}", bytes.len()), &bytes);
        report(&format!("{} logs of {path}", cases.len()), &cases);
    }
    report_lines("every call, answered positive at once", &lined::one_reply());
    report_lines("512 events, idle or notices", &lined::long_lists());
    let mut rng = Rng::new(seed);
    let mut mixed = Vec::new();
    for (at, generator) in GENERATORS.iter().enumerate() {
        let name = generator.name;
        if name == "anything" || name == "damaged replies" || name == "notices and idles" {
            let mut left = 2000;
            (generator.run)(&mut generator_rng(seed, at), &mut |case| {
                if left > 0 && rng.once_in(100) {
                    left -= 1;
                    mixed.push(case.clone());
                }
            });
        }
    }
    report("a mix of generated cases", &mixed);
    let good: Vec<Case> = sample_calls()
        .into_iter()
        .map(|call| {
            let reply = good_reply(&call, &mut rng);
            let mut case = Case::new(call, Setting::default());
            case.reply(10, &reply);
            case
        })
        .collect();
    report("every call, answered positive at once", &good);
    for count in [1, 8, 64, 512] {
        report(
            &format!("{count} events, all but one idle"),
            &[idles(count)],
        );
    }
    for count in [1, 8, 64, 512] {
        report(
            &format!("{count} events, all but one notices"),
            &[notices(count)],
        );
    }
    for length in [4, 64, 512, 4095] {
        let mut reply = rng.bytes(length);
        reply[..3].copy_from_slice(&[0x62, 0xf1, 0x90]);
        let mut case = Case::new(Call::ReadIdentifier { id: 0xf190 }, Setting::default());
        case.reply(10, &reply);
        report(&format!("a reply of {length} bytes"), &[case]);
    }
    #[cfg(feature = "proved")]
    single_steps();
    Ok(0)
}
