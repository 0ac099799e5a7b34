//! The lists that the documents print, and a census of the generated jobs.

use std::fmt::Write;

use oracle::faults::faults;
use oracle::judge::{Lent, Outcome, answer};
use oracle::substitutions::SUBSTITUTIONS;

use crate::generator::{self, KINDS};

fn cell(text: &str) -> String {
    if text.is_empty() {
        return "nothing".to_string();
    }
    let text = text.trim_end_matches('\n');
    let lines: Vec<String> =
        text.lines().map(|line| format!("`{}`", line.trim().replace('`', "'"))).collect();
    lines.join("<br>").replace('|', "\\|")
}

pub fn substitutions() -> String {
    let mut table =
        "| file | text | becomes | times | reason |\n|---|---|---|---|---|\n".to_string();
    for s in SUBSTITUTIONS {
        let (find, replace) = (cell(s.find), cell(s.replace));
        writeln!(table, "| {} | {find} | {replace} | {} | {} |", s.file, s.times, s.reason)
            .unwrap();
    }
    table
}

/// A line for each fault: its name, and whether it shows in some answer.
pub fn fault_names() -> String {
    faults()
        .map(|fault| format!("{} {}\n", fault.name, if fault.shows { "shows" } else { "same" }))
        .collect()
}

/// For each kind: jobs, sheets given, and how often each refusal came.
pub fn census(total: u64) -> String {
    let mut counts = vec![[0u64; 17]; KINDS.len()];
    let mut milliseconds = vec![0.0; KINDS.len()];
    for number in 0..total {
        let (kind, _, job) = generator::mixed(number);
        let start = std::time::Instant::now();
        let outcome = answer(&job, Lent::PROGRAM).outcome;
        milliseconds[kind] += start.elapsed().as_secs_f64() * 1e3;
        let row = match outcome {
            Outcome::Refused(number) => usize::from(number),
            Outcome::Sheet(_) => 0,
        };
        counts[kind][row] += 1;
    }
    let mut table =
        "| kind | jobs | sheets | refused | ms a job |\n|---|---|---|---|---|\n".to_string();
    for (kind, (name, ..)) in KINDS.iter().enumerate() {
        let jobs: u64 = counts[kind].iter().sum();
        let refused: Vec<String> = (1..17)
            .filter(|row| counts[kind][*row] > 0)
            .map(|row| format!("{row}: {}", counts[kind][row]))
            .collect();
        let (sheets, mean) = (counts[kind][0], milliseconds[kind] / jobs.max(1) as f64);
        writeln!(table, "| {name} | {jobs} | {sheets} | {} | {mean:.2} |", refused.join(", "))
            .unwrap();
    }
    table
}
