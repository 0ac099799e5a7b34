//! Whether a planted fault is noticed: the clean oracle writes a hash of each
//! answer, the planted one looks for the first job that it answers otherwise.

use oracle::judge::{Answer, Outcome, answer};
use oracle::plotting::glyphs::discs::layers::fnv1a;

use crate::generator;
use crate::lent::lent;

fn hash(answer: &Answer) -> u64 {
    let mut bytes = match &answer.outcome {
        Outcome::Refused(number) => vec![*number],
        Outcome::Sheet(sheet) => sheet.clone(),
    };
    bytes.extend(answer.trials.iter().flat_map(|count| count.to_be_bytes()));
    fnv1a(&bytes)
}

pub fn hashes(total: u64) -> Vec<u8> {
    let hash_of = |number| {
        let (_, _, job) = generator::mixed(number);
        hash(&answer(&job, lent(number, &job)))
    };
    (0..total).flat_map(|number| hash_of(number).to_be_bytes()).collect()
}

/// The number and name of the first job with another answer. A planted fault
/// may break an assertion, which is another answer too.
pub fn first_difference(hashes: &[u8]) -> Option<(u64, String)> {
    std::panic::set_hook(Box::new(|_| {}));
    let known = hashes.chunks_exact(8).map(|hash| u64::from_be_bytes(hash.try_into().unwrap()));
    (0..).zip(known).find_map(|(number, known)| {
        let (kind, seed, job) = generator::mixed(number);
        let given = std::panic::catch_unwind(|| hash(&answer(&job, lent(number, &job))));
        (given.ok() != Some(known)).then(|| (number, generator::name(kind, seed)))
    })
}
