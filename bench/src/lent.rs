//! The slices that a caller lends, and a whole job over them.
use std::hint::black_box;

pub struct Lent {
    first: Vec<f64>,
    second: Vec<f64>,
    sheet: Vec<u8>,
}

impl Lent {
    #[expect(clippy::new_without_default)]
    pub fn new() -> Lent {
        Lent {
            first: vec![0.0; marks::WORK_FLOATS],
            second: vec![0.0; marks::WORK_FLOATS],
            sheet: vec![0; marks::LONGEST_SHEET],
        }
    }

    /// The sheet, or the number of the refusal.
    pub fn plan(&mut self, job: &[u8]) -> Result<&[u8], u32> {
        match marks::plan_into(job, &mut self.first, &mut self.second, &mut self.sheet) {
            Ok(given) => Ok(given.sheet),
            Err(refusal) => Err(refusal.number()),
        }
    }

    /// Nanoseconds of an accepted job.
    pub fn time(&mut self, job: &[u8]) -> f64 {
        crate::best(|| {
            black_box(self.plan(black_box(job)).unwrap());
        })
    }
}
