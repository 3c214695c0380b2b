//! oracle: the original's UDS client, document 01's rules and the proved library on the same cases. README.md says what
//! each command does.
#![forbid(unsafe_code)]

mod compare;
mod direct;
mod direct_line;
mod faults;
mod foreign;
mod generate;
mod limited;
mod lined;
mod lines;
mod list;
mod log;
mod model;
#[cfg(feature = "mutants")]
mod mutants;
mod original;
#[cfg(feature = "proved")]
mod proved;
mod rng;
mod sample;
mod sequences;
mod steps;
mod time;

const USAGE: &str = "\
oracle lines LOGS [EXPECTED]       the line of each log of a file, or a comparison with the expected lines
oracle compare SIDE [SEED] [full]  the original against SIDE on millions of generated cases
oracle sample SIDE [SEED]          the same on some of each kind of them
oracle faults SIDE [SEED]          that faults in the inputs of SIDE are noticed
oracle limited SIDE [SEED]         SIDE under limits of notices, which the original does not have
oracle limits SIDE LOGS EXPECTED   the line of each log under the limit that its expected line begins with
oracle foreign SIDE [SEED]         SIDE on events with source addresses, which the original does not have
oracle logs SIDE LOGS EXPECTED     SIDE's line of each log, of either version
oracle sequences SIDE [SEED]       several calls on one client of the original against SIDE
oracle steps SIDE [SEED]           SIDE one event at a time with ticks between, which the original does not do
oracle runs SIDE RUNS              SIDE on the runs of a file, step by step
oracle mutants SIDE IDS N M        mutants of the original against SIDE; in the build of oracle/mutants alone
oracle list PREFIX [SEED]          writes the fixed list, PREFIX.bin and PREFIX.expected
oracle written SIDE LOGS EXPECTED  SIDE's line of each log, from the log's bytes
oracle filter                      a file of logs as standard input to their lines, by the direct program
oracle set NAME LOGS               writes a set of logs that is measured: one-reply or long-lists
oracle passes SIDE LOGS COUNT      so many passes over the logs of a file, from log to line; SIDE may be original
oracle time [SEED] [LOGS]          what a call costs, on the logs of a file too
SIDE is direct or, where the driver was built with it, proved. SEED is a number, 1 if left out.";

fn side(name: &str) -> Result<compare::Side, String> {
    match name {
        "direct" => Ok(direct::run),
        #[cfg(feature = "proved")]
        "proved" => Ok(proved::run),
        #[cfg(not(feature = "proved"))]
        "proved" => Err("The driver was built without the proved library.".to_string()),
        other => Err(format!("There is no side {other}; it is direct or proved.")),
    }
}

fn stepper(name: &str) -> Result<steps::Stepper, String> {
    match name {
        #[cfg(feature = "proved")]
        "proved" => Ok(proved::step),
        _ => side(name).map(|_| steps::direct as steps::Stepper),
    }
}

fn seed(word: Option<&&str>) -> Result<u64, String> {
    match word {
        None => Ok(1),
        Some(word) => word
            .parse()
            .map_err(|_| format!("{word} is no number for a seed.")),
    }
}

fn run(words: &[&str]) -> Result<usize, String> {
    match words {
        ["lines", logs] => lines::lines(logs, None),
        ["lines", logs, expected] => lines::lines(logs, Some(expected)),
        ["compare", name, more @ .., "full"] => {
            compare::compare(side(name)?, seed(more.first())?, true)
        }
        ["compare", name, more @ ..] => compare::compare(side(name)?, seed(more.first())?, false),
        ["sample", name, more @ ..] => faults::sample(side(name)?, seed(more.first())?),
        ["faults", name, more @ ..] => {
            faults::faults(side(name)?, stepper(name)?, seed(more.first())?)
        }
        ["limited", name, more @ ..] => limited::limited(side(name)?, seed(more.first())?),
        ["limits", name, logs, expected] => limited::limits(side(name)?, logs, expected),
        ["foreign", name, more @ ..] => foreign::foreign(side(name)?, seed(more.first())?),
        ["logs", name, logs, expected] => foreign::logs(side(name)?, logs, expected),
        ["steps", name, more @ ..] => {
            steps::steps(stepper(name)?, side(name)?, seed(more.first())?)
        }
        ["runs", name, runs] => steps::runs(stepper(name)?, runs),
        ["sequences", name, more @ ..] => sequences::sequences(side(name)?, seed(more.first())?),
        #[cfg(feature = "mutants")]
        ["mutants", name, ids, of_each, count] => {
            mutants::mutants(side(name)?, ids, of_each, count)
        }
        ["list", prefix, more @ ..] => list::list(prefix, seed(more.first())?),
        ["written", name, logs, expected] => lined::written(name, logs, expected),
        ["filter"] => lined::filter(),
        ["set", name, path] => lined::set(name, path),
        ["passes", name, logs, count] => {
            let count = count.parse();
            lined::passes(name, logs, count.map_err(|_| "COUNT is a number.".to_string())?)
        }
        ["time", number, logs] => time::time(seed(Some(number))?, Some(logs)),
        ["time", more @ ..] => time::time(seed(more.first())?, None),
        _ => Err(format!("Usage:\n{USAGE}")),
    }
}

fn main() {
    let arguments: Vec<String> = std::env::args().skip(1).collect();
    let words: Vec<&str> = arguments.iter().map(String::as_str).collect();
    match run(&words) {
        Ok(0) => {}
        Ok(_) => std::process::exit(1),
        Err(sentence) => {
            eprintln!("{sentence}");
            std::process::exit(2);
        }
    }
}
