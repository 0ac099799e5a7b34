//! A whole job, from bytes to sheet, beside the Rust original.
use crate::{Lent, best, line};
use oracle::{job, judge, sheet};
use std::hint::black_box;

/// The reference from the job's bytes to the sheet's.
fn rust(bytes: &[u8]) -> Vec<u8> {
    let (radius, zones, _) = judge::place_zones(&job::read(bytes).unwrap());
    sheet::write(radius, &zones)
}

/// A line of the table, and the radius where the job is accepted.
pub fn measure(name: &str, bytes: &[u8], lent: &mut Lent) -> Option<f64> {
    let radius = match lent.plan(bytes) {
        Ok(sheet) => {
            assert!(sheet == rust(bytes), "{name}: another sheet");
            f64::from_be_bytes(sheet[5..13].try_into().unwrap())
        }
        Err(number) => {
            println!("{name:<56} refused {number}");
            return None;
        }
    };
    let ours = lent.time(bytes);
    let other = best(|| {
        black_box(rust(black_box(bytes)));
    });
    line(name, other, ours);
    Some(radius)
}
