//! The lengths of the slices that a generated job is lent.

use oracle::job;
use oracle::judge::Lent;

use crate::rng::Rng;

/// Mostly the program's, sometimes short or just long enough.
pub fn lent(number: u64, job: &[u8]) -> Lent {
    let mut rng = Rng::new(99, number);
    let mut lent = Lent::PROGRAM;
    match rng.index(40) {
        0 => lent.first = rng.pick(&[0, 7_999, 8_000, 8_001, 8_100]),
        1 => lent.second = rng.pick(&[0, 7_999, 8_000, 8_001, 8_100]),
        2..=5 => lent.sheet = exact_buffer(job) - usize::from(rng.one_in(2)),
        6 => lent.sheet = rng.index(64),
        _ => {}
    }
    lent
}

/// The shortest sheet buffer that row 14 lets pass, where the job can be read.
fn exact_buffer(bytes: &[u8]) -> usize {
    let read = job::check_length(bytes).and_then(|()| job::read(bytes));
    read.map_or(15, |job| {
        let zones = job.zones.iter().filter(|zone| zone.left_in());
        let spots = zones.map(|zone| 5 + zone.key.len() + 16 * usize::from(zone.count));
        15 + spots.sum::<usize>()
    })
}
