//! The driver: the stored list, the comparison, all Fixed values, planted faults, and the fuzz target's seeds.

use oracle::operation::Operation;
use oracle::operations::flatten;
use oracle::sections::Run;
use oracle::{faults, fixed, fonts, fuzzed, list, random};
use std::path::PathBuf;
use std::process::ExitCode;
use std::time::{Duration, Instant};

const USAGE: &str = "\
usage: driver list FOLDER                                        the stored list of the program `cases`
       driver seeds FOLDER                                       inputs for the fuzz target to start from
       driver fixed                                              all Fixed values as call indexes
       driver compare [CASES=N] [SEED=N] [FONTS='FOLDER ..']     the full comparison
       driver compare SECONDS=N [SEED=N] [FONTS='FOLDER ..']     a sample of about so many seconds
       driver fault FAULT=N                                      what a fault does, where there are so many
       driver random SECONDS=N [SEED=N] [FAULT=N]                of the sample, the random ones alone, with a fault before the library";

/// How many random charstrings a full run takes, and how often each answer of theirs has to come.
const CASES: u64 = 10_000_000;
const LEAST: u64 = 1000;

/// Whose word what is.
const HELD: &str = "\
the rule's word, at every call: the answer, the values at the places, the bytes, the rows and the words
the Rust's word: where docs/RULES.md compares the two, that it gives the same values and bytes, or an error
and of each call: no byte changed but those reported, no place set but those that the answer gives, nothing touched beyond";
const NO_FONTS: &str = "no CFF fonts were found; name folders in FONTS, or apt-get install ";

/// How many glyphs of a font a sample takes.
const SAMPLED_GLYPHS: usize = 200;

/// What is asked for, each as the variable of that name in the Makefile.
#[derive(Default)]
struct Options {
    words: Vec<String>,
    cases: Option<u64>,
    seconds: Option<u64>,
    seed: u64,
    fault: Option<usize>,
    folders: Vec<PathBuf>,
}

/// Why a run failed: with a difference, or without one, but showing too little.
enum Failure {
    Difference(String),
    Lacking(String),
}

fn main() -> ExitCode {
    let Some(options) = options(std::env::args().skip(1)) else {
        eprintln!("{USAGE}");
        return ExitCode::from(2);
    };
    let words: Vec<&str> = options.words.iter().map(String::as_str).collect();
    let ended = match (&words[..], options.seconds) {
        (["list", folder], _) => list::write(folder).map_err(Failure::Difference),
        (["seeds", folder], _) => fuzzed::write_seeds(folder).map_err(Failure::Lacking),
        (["fixed"], _) => fixed::run().map_err(Failure::Difference),
        (["compare"], _) => everything(&options),
        (["fault"], _) => planted(&options),
        (["random"], Some(_)) => random_alone(&options),
        _ => Err(Failure::Lacking(USAGE.into())),
    };
    match ended {
        Ok(()) => ExitCode::SUCCESS,
        Err(Failure::Difference(difference)) => {
            eprint!("{difference}");
            ExitCode::from(1)
        }
        Err(Failure::Lacking(why)) => {
            eprintln!("{why}");
            ExitCode::from(2)
        }
    }
}

fn options(words: impl Iterator<Item = String>) -> Option<Options> {
    let mut options = Options { seed: random::any_seed(), ..Options::default() };
    for word in words {
        match word.split_once('=') {
            None => options.words.push(word),
            Some((_, "")) => {}
            Some(("CASES", value)) => options.cases = Some(value.parse().ok()?),
            Some(("SECONDS", value)) => options.seconds = Some(value.parse().ok()?),
            Some(("SEED", value)) => options.seed = value.parse().ok()?,
            Some(("FAULT", value)) => options.fault = Some(value.parse().ok()?),
            Some(("FONTS", value)) => {
                options.folders = value.split_whitespace().map(PathBuf::from).collect();
            }
            Some(_) => return None,
        }
    }
    Some(options)
}

impl Options {
    fn run(&self) -> Run {
        println!("seed {}", self.seed);
        let until = self.seconds.map(|seconds| Instant::now() + Duration::from_secs(seconds));
        Run { seed: self.seed, until }
    }
}

/// Each section; what a section showed is printed before the next begins.
fn everything(options: &Options) -> Result<(), Failure> {
    let run = options.run();
    let full = options.seconds.is_none();
    let mut start = Instant::now();
    let mut seconds = || std::mem::replace(&mut start, Instant::now()).elapsed().as_secs();

    let listed = run.listed().map_err(Failure::Difference)?;
    listed.report(&format!("listed, {} s", seconds()));
    let most = if full { usize::MAX } else { SAMPLED_GLYPHS };
    let (glyphs, fonts) = run.fonts(&options.folders, most).map_err(Failure::Difference)?;
    glyphs.report(&format!("glyphs of {fonts} fonts, {} s", seconds()));
    if fonts == 0 {
        println!("{NO_FONTS}{}", fonts::PACKAGES);
    }
    if full && fonts == 0 {
        return Err(Failure::Lacking("a full run takes fonts".into()));
    }
    let strings = run.strings().map_err(Failure::Difference)?;
    strings.report(&format!("strings, {} s", seconds()));
    let mut all = run.random(options.cases.unwrap_or(CASES)).map_err(Failure::Difference)?;
    all.report(&format!("random, {} s", seconds()));
    println!("{HELD}");

    if !full {
        all.add(&listed);
    }
    let often = |operation: &Operation| full && operation.number == flatten::OPERATION.number;
    let lacks = all.lacks(|operation| if often(operation) { LEAST } else { 1 });
    if lacks.is_empty() {
        Ok(())
    } else {
        Err(Failure::Lacking(lacks.join("\n")))
    }
}

/// Plants the fault that is asked for.
fn planted(options: &Options) -> Result<(), Failure> {
    let Some(number) = options.fault else { return Ok(()) };
    let name =
        faults::plant(number).ok_or(Failure::Lacking(format!("there is no fault {number}")))?;
    println!("{name}");
    Ok(())
}

fn random_alone(options: &Options) -> Result<(), Failure> {
    planted(options)?;
    options.run().random(0).map_err(Failure::Difference)?.report("random");
    Ok(())
}
