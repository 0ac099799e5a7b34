//! Marks in the zones of a floor, around pillars: a safe wrapper of the proved
//! disc packer's call `marks_plan`, with std alone.
//!
//! [`plan`] takes a job's bytes and gives the radius and each zone's spots, or
//! the number of the refusal. [`plan_into`] does the same over slices that the
//! caller lends, and allocates nothing.
//!
//! ```no_run
//! let job = std::fs::read("floor.job").unwrap();
//! match marks::plan(&job) {
//!     Ok(plan) => println!("radius {}, {} unplaced", plan.radius, plan.unplaced()),
//!     Err(refusal) => println!("{refusal}"),
//! }
//! ```
//!
//! `build.rs` links `libmarks.a`, which `tools/build` proves and writes:
//! from the folder that the variable `MARKS_LIB` names, by default the
//! repository's `target/staticlib`.

mod entry;
mod refusal;
mod sheet;

pub use refusal::Refusal;
pub use sheet::{Sheet, Spot, Zone};

use entry::marks_plan;

/// Each work slice has at least so many floats.
pub const WORK_FLOATS: usize = 8_000;
/// A sheet buffer of this length is long enough for every job.
pub const LONGEST_SHEET: usize = 15 + 64 * 37 + 2_000 * 16;

/// How many trial packings the search for an automatic radius made.
#[derive(Clone, Copy, Debug, PartialEq, Eq)]
pub struct Trials {
    pub free_of_obstacles: u32,
    pub with_obstacles: u32,
}

/// An accepted job's radius, zones and trials.
#[derive(Clone, Debug, PartialEq)]
pub struct Plan {
    pub radius: f64,
    /// The zones that are left in, in the job's order.
    pub zones: Vec<Zone>,
    pub trials: Trials,
}

impl Plan {
    /// How many marks found no place, over all zones.
    pub fn unplaced(&self) -> usize {
        self.zones.iter().map(|zone| usize::from(zone.unplaced)).sum()
    }
}

/// A sheet in the front of the buffer that was lent for it.
#[derive(Clone, Copy, Debug, PartialEq, Eq)]
pub struct Given<'a> {
    pub sheet: &'a [u8],
    pub trials: Trials,
}

/// Plans a job.
pub fn plan(job: &[u8]) -> Result<Plan, Refusal> {
    let mut first = vec![0.0; WORK_FLOATS];
    let mut second = vec![0.0; WORK_FLOATS];
    let mut buffer = vec![0; LONGEST_SHEET];
    let given = plan_into(job, &mut first, &mut second, &mut buffer)?;
    let sheet = Sheet::read(given.sheet).expect("the call writes a sheet");
    Ok(Plan { radius: sheet.radius, zones: sheet.zones, trials: given.trials })
}

/// Plans a job over lent slices. Refused: `sheet` is unchanged. Given: the
/// bytes after the sheet are. The work slices are untouched after refusals 1
/// and 2; else their first 8,000 floats are +0 and the rest is unchanged.
pub fn plan_into<'a>(
    job: &[u8],
    first: &mut [f64],
    second: &mut [f64],
    sheet: &'a mut [u8],
) -> Result<Given<'a>, Refusal> {
    let mut answer = [0; 3];
    // SAFETY: each pointer comes with the length of its slice; the slices that
    // are written are borrowed mutably, so they overlap nothing; the call reads
    // and writes only within them, and three numbers of `answer`.
    let length = unsafe {
        marks_plan(
            job.as_ptr(),
            job.len(),
            first.as_mut_ptr(),
            first.len(),
            second.as_mut_ptr(),
            second.len(),
            sheet.as_mut_ptr(),
            sheet.len(),
            answer.as_mut_ptr(),
        )
    };
    let [number, free_of_obstacles, with_obstacles] = answer;
    if number != 0 {
        return Err(Refusal::of(number));
    }
    let trials = Trials { free_of_obstacles, with_obstacles };
    Ok(Given { sheet: &sheet[..length as usize], trials })
}
