//! The call from job bytes to sheet: its answer, and every lent byte and float.

use std::fs;

use harness::comparison::Run;
use harness::generator;
use harness::guarded::Guarded;
use harness::lent::lent;
use harness::recorded::parse;
use harness::rng::Rng;
use harness::tally::{Tally, on_two_threads};
use oracle::judge::{Answer, Lent, Outcome, answer};
use probes::entries::marks_plan;

const WORK_FLOATS: usize = 8_000;

pub fn mixed(run: &Run) -> Tally {
    on_two_threads("plan", &run.kept, run.jobs, |tally, number| {
        let (kind, seed, job) = generator::mixed(number);
        let lent = lent(number, &job);
        let fault = fault_of(number, &job, lent, &answer(&job, lent));
        keep(tally, &generator::name(kind, seed), &job, fault);
    })
}

pub fn recorded(run: &Run) -> Tally {
    let text = fs::read_to_string(&run.recorded).expect("the recorded answers are there");
    let mut tally = Tally::new("recorded", &run.kept);
    for (number, record) in parse(&text).iter().enumerate() {
        let fault = fault_of(number as u64, &record.job, Lent::PROGRAM, &record.answer);
        keep(&mut tally, &record.name, &record.job, fault);
    }
    tally
}

fn keep(tally: &mut Tally, name: &str, job: &[u8], fault: Option<&str>) {
    if let Some(fault) = fault {
        println!("{name}: {fault} differs");
    }
    tally.count(fault.is_none(), || (format!("{name}.job"), job.to_vec()));
}

/// The lent slices, of random contents; floats as their bits.
struct Slices {
    job: Guarded<u8>,
    first: Guarded<u64>,
    second: Guarded<u64>,
    sheet: Guarded<u8>,
    numbers: Guarded<u32>,
}

impl Slices {
    fn new(number: u64, job: &[u8], lent: Lent) -> Self {
        let mut rng = Rng::new(98, number);
        Self {
            job: Guarded::new(job.iter().copied(), || rng.bits() as u8),
            first: Guarded::filled(lent.first, || rng.bits()),
            second: Guarded::filled(lent.second, || rng.bits()),
            sheet: Guarded::filled(lent.sheet, || rng.bits() as u8),
            numbers: Guarded::filled(3, || rng.bits() as u32),
        }
    }

    /// The call; answers the sheet's length.
    fn plan(&mut self) -> usize {
        let (job, sheet) = (self.job.lent(), self.sheet.lent());
        let (first, second) = (self.first.lent(), self.second.lent());
        let length = unsafe {
            marks_plan(
                job.as_ptr(),
                job.len(),
                first.as_mut_ptr().cast(),
                first.len(),
                second.as_mut_ptr().cast(),
                second.len(),
                sheet.as_mut_ptr(),
                sheet.len(),
                self.numbers.lent().as_mut_ptr(),
            )
        };
        length as usize
    }
}

/// The first thing that is not as the answer says.
fn fault_of(number: u64, job: &[u8], lent: Lent, wanted: &Answer) -> Option<&'static str> {
    let mut slices = Slices::new(number, job, lent);
    let length = slices.plan();
    let (refusal, sheet): (u8, &[u8]) = match &wanted.outcome {
        Outcome::Refused(number) => (*number, &[]),
        Outcome::Sheet(sheet) => (0, sheet),
    };
    let numbers = slices.numbers.now();
    if numbers[0] != u32::from(refusal) {
        return Some("the refusal");
    }
    if numbers[1..] != wanted.trials {
        return Some("a trial count");
    }
    if length != sheet.len() || !slices.sheet.now().starts_with(sheet) {
        return Some("the sheet");
    }
    if !slices.sheet.unchanged_after(sheet.len()) {
        return Some("the buffer after the sheet");
    }
    let cleared = if matches!(refusal, 1 | 2) { 0 } else { WORK_FLOATS };
    let as_owed = |work: &Guarded<u64>| {
        work.now()[..cleared].iter().all(|bits| *bits == 0) && work.unchanged_after(cleared)
    };
    if !as_owed(&slices.first) || !as_owed(&slices.second) {
        return Some("a work slice");
    }
    if !slices.job.unchanged_after(0) || !slices.numbers.unchanged_after(3) {
        return Some("the job, or what is beside the numbers");
    }
    None
}
