//! What needs the oracle alone: its own checks, the recorded answers, the
//! lists for the documents, and the search for planted faults.

use std::io::Write;
use std::path::PathBuf;
use std::process::ExitCode;
use std::{env, fs, io};

use harness::tally::Tally;
use harness::{noticed, recorded, refusals, tables, worked};
use oracle::judge::{Lent, Outcome, answer};

const USAGE: &str = "judge self|replay FILE|record FILE|census N|substitutions|faults
      |hashes FILE N|noticed FILE|answer FILE|sheet FILE|jobs N";

fn main() -> ExitCode {
    let arguments: Vec<String> = env::args().skip(1).collect();
    let words: Vec<&str> = arguments.iter().map(String::as_str).collect();
    let good = match words[..] {
        ["self"] => check_self(),
        ["replay", file] => replay(file),
        ["record", file] => write(file, recorded::record().as_bytes()),
        ["census", total] => print(&tables::census(number(total))),
        ["substitutions"] => print(&tables::substitutions()),
        ["faults"] => print(&tables::fault_names()),
        ["hashes", file, total] => write(file, &noticed::hashes(number(total))),
        ["noticed", file] => look_for_difference(file),
        ["answer", file] => print(&format!("{:?}\n", answer(&read(file), Lent::PROGRAM))),
        ["sheet", file] => write_sheet(&read(file)),
        ["jobs", total] => print(&recorded::jobs(number(total))),
        _ => {
            eprintln!("{USAGE}");
            false
        }
    };
    if good { ExitCode::SUCCESS } else { ExitCode::FAILURE }
}

fn number(text: &str) -> u64 {
    text.parse().expect("a number")
}

fn read(file: &str) -> Vec<u8> {
    fs::read(file).unwrap_or_else(|error| panic!("{file}: {error}"))
}

fn write(file: &str, bytes: &[u8]) -> bool {
    fs::write(file, bytes).unwrap_or_else(|error| panic!("{file}: {error}"));
    true
}

fn print(text: &str) -> bool {
    print!("{text}");
    true
}

/// What the job program writes.
fn write_sheet(job: &[u8]) -> bool {
    let bytes = match answer(job, Lent::PROGRAM).outcome {
        Outcome::Refused(number) => format!("refused {number}\n").into_bytes(),
        Outcome::Sheet(sheet) => sheet,
    };
    io::stdout().write_all(&bytes).is_ok()
}

fn kept() -> PathBuf {
    env::var_os("DIFFERENT").map_or_else(|| "different".into(), PathBuf::from)
}

fn check_self() -> bool {
    type Check = fn(&mut Tally);
    let checks: [(&str, Check); 3] = [
        ("worked example", worked::check),
        ("keys", worked::check_keys),
        ("refusals by 01's table", refusals::check),
    ];
    let mut good = true;
    for (name, check) in checks {
        let mut tally = Tally::new(name, &kept());
        check(&mut tally);
        good &= tally.report();
    }
    good
}

fn replay(file: &str) -> bool {
    let text = String::from_utf8(read(file)).expect("recorded answers are text");
    let mut tally = Tally::new("recorded answers, oracle", &kept());
    for record in recorded::parse(&text) {
        let same = answer(&record.job, Lent::PROGRAM) == record.answer;
        tally.count(same, || (format!("{}.job", record.name), record.job));
    }
    tally.report()
}

fn look_for_difference(file: &str) -> bool {
    match noticed::first_difference(&read(file)) {
        Some((number, name)) => print(&format!("job {number} ({name})\n")),
        None => !print("not noticed\n"),
    }
}
