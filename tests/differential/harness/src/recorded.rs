//! Recorded answers: a line for each job, with its name, its bytes and its
//! sheet in hexadecimal (`-` for no bytes, `refused-N` for a refusal), and
//! the two trial counts.

use oracle::judge::{Answer, Lent, Outcome, answer};

use crate::generator::{self, KINDS};
use crate::refusals;
use crate::worked::example;

pub struct Record {
    pub name: String,
    pub job: Vec<u8>,
    pub answer: Answer,
}

const HEADING: &str = "\
# Jobs of every kind with the answers of the Rust original under the stand-ins
# of docs/DIFFERENCES.md. Made by tests/differential/run --record.
# name job answer trials trials-with-obstacles
";

/// Jobs and sheets up to these lengths are recorded, so that the file is small.
const LONGEST_JOB: usize = 520;
const LONGEST_SHEET: usize = 420;

pub fn record() -> String {
    let mut text = HEADING.to_string();
    text += &line("worked-example", &example().bytes());
    text += &line("empty-input", &[]);
    for (name, job) in refusals::for_program() {
        if job.len() <= LONGEST_JOB && !name.starts_with("cut-to") {
            text += &line(&format!("at-limit-{name}"), &job);
        }
    }
    for (kind, (name, ..)) in KINDS.iter().enumerate() {
        let mut wanted = match *name {
            "limits" => 60,
            "walk" => 4,
            "crowd" => 8,
            _ => 18,
        };
        let larger = matches!(*name, "walk" | "crowd");
        for seed in 0.. {
            let job = generator::job(kind, seed);
            if job.len() > LONGEST_JOB {
                continue;
            }
            let line = line(&generator::name(kind, seed), &job);
            let longest = 2 * (job.len() + LONGEST_SHEET * if larger { 20 } else { 1 }) + 60;
            if line.len() > longest {
                continue;
            }
            text += &line;
            wanted -= 1;
            if wanted == 0 {
                break;
            }
        }
    }
    text
}

fn line(name: &str, job: &[u8]) -> String {
    let given = answer(job, Lent::PROGRAM);
    let outcome = match &given.outcome {
        Outcome::Refused(number) => format!("refused-{number}"),
        Outcome::Sheet(sheet) => hex(sheet),
    };
    let [free, with_obstacles] = given.trials;
    format!("{name} {} {outcome} {free} {with_obstacles}\n", hex(job))
}

/// The first jobs of the mixed run, a line for each with its name and bytes.
pub fn jobs(total: u64) -> String {
    let line = |number| {
        let (kind, seed, job) = generator::mixed(number);
        format!("{} {}\n", generator::name(kind, seed), hex(&job))
    };
    (0..total).map(line).collect()
}

pub fn parse(text: &str) -> Vec<Record> {
    text.lines()
        .filter(|line| !line.starts_with('#'))
        .map(|line| {
            let columns: Vec<&str> = line.split(' ').collect();
            let [name, job, outcome, free, with_obstacles] = columns[..] else {
                panic!("a recorded line has five columns: {line}");
            };
            let outcome = match outcome.strip_prefix("refused-") {
                Some(number) => Outcome::Refused(number.parse().expect("a refusal's number")),
                None => Outcome::Sheet(unhex(outcome)),
            };
            let count = |text: &str| text.parse().expect("a trial count");
            Record {
                name: name.to_string(),
                job: unhex(job),
                answer: Answer { outcome, trials: [count(free), count(with_obstacles)] },
            }
        })
        .collect()
}

fn hex(bytes: &[u8]) -> String {
    if bytes.is_empty() {
        return "-".to_string();
    }
    bytes.iter().map(|byte| format!("{byte:02x}")).collect()
}

fn unhex(text: &str) -> Vec<u8> {
    if text == "-" {
        return Vec::new();
    }
    (0..text.len())
        .step_by(2)
        .map(|at| u8::from_str_radix(&text[at..at + 2], 16).expect("two hexadecimal digits"))
        .collect()
}
