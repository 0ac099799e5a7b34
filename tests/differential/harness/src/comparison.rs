//! A list of comparisons, of which some may be named.

use std::env;
use std::path::PathBuf;
use std::process::ExitCode;

use crate::tally::Tally;

/// How much to run, and where what differs is kept.
pub struct Run {
    pub jobs: u64,
    pub kept: PathBuf,
    pub recorded: PathBuf,
}

pub type Comparison = (&'static str, fn(&Run) -> Tally);

/// Runs the comparisons that the arguments name (`NAME..`, none for all) with
/// `--jobs N`; fails on a difference, or where a name is not known.
pub fn run(comparisons: &[Comparison]) -> ExitCode {
    let mut wanted: Vec<String> = env::args().skip(1).collect();
    let mut jobs = 5_000;
    if let Some(at) = wanted.iter().position(|word| word == "--jobs") {
        jobs = wanted[at + 1].parse().expect("--jobs is followed by a number");
        wanted.drain(at..at + 2);
    }
    let folder =
        |name: &str, default: &str| env::var_os(name).map_or_else(|| default.into(), PathBuf::from);
    let run = Run {
        jobs,
        kept: folder("DIFFERENT", "different"),
        recorded: folder("RECORDED", "tests/recorded/answers.txt"),
    };
    let mut good = true;
    for name in &wanted {
        if !comparisons.iter().any(|(known, _)| known == name) {
            eprintln!("no comparison is named {name}");
            good = false;
        }
    }
    for (name, compare) in comparisons {
        if wanted.is_empty() || wanted.iter().any(|word| word == name) {
            good &= compare(&run).report();
        }
    }
    if good { ExitCode::SUCCESS } else { ExitCode::FAILURE }
}
