//! Root against the machine's; hash, radical inverse and quotas against the
//! functions of the source. The refusals are as README.md has them.

use harness::comparison::Run;
use harness::leaf_inputs::{hashed, inverse_input, quota_input, radicand};
use harness::tally::{Tally, on_two_threads, same_float};
use oracle::plotting::glyphs::discs::layers;
use probes::entries::{marks_hash, marks_quotas, marks_radical_inverse, marks_root};

const ROOTS: u64 = 12_000_000;
const OTHERS: u64 = 1_200_000;

pub fn root(run: &Run) -> Tally {
    on_two_threads("root", &run.kept, ROOTS, |tally, number| {
        let x = radicand(number);
        let (given, wanted) = (marks_root(x), x.sqrt());
        tally.count(same_float(given, wanted), || {
            let text = format!("{:016x}: {given:e}, not {wanted:e}\n", x.to_bits());
            (format!("{:016x}.txt", x.to_bits()), text.into_bytes())
        });
    })
}

pub fn hash(run: &Run) -> Tally {
    on_two_threads("hash", &run.kept, OTHERS, |tally, number| {
        let bytes = hashed(number);
        let given = unsafe { marks_hash(bytes.as_ptr(), bytes.len()) };
        tally.count(given == layers::fnv1a(&bytes), || (format!("{number}.bytes"), bytes));
    })
}

pub fn radical_inverse(run: &Run) -> Tally {
    on_two_threads("radical-inverse", &run.kept, OTHERS, |tally, number| {
        let (index, base) = inverse_input(number);
        let wanted = if (2..=65_536).contains(&base) {
            (layers::radical_inverse(index as usize, base as usize), 0)
        } else {
            (0.0, 17)
        };
        let mut refusal = 255;
        let value = marks_radical_inverse(index, base, &mut refusal);
        let same = same_float(value, wanted.0) && refusal == wanted.1;
        tally.count(same, || {
            let text = format!("index {index} base {base}: {value:e} {refusal}, not {wanted:?}\n");
            (format!("{number}.txt"), text.into_bytes())
        });
    })
}

pub fn quotas(run: &Run) -> Tally {
    on_two_threads("quotas", &run.kept, OTHERS, |tally, number| {
        let input = quota_input(number);
        let weights = &input.weights;
        let before: Vec<u64> = (0..input.room as u64).map(|k| !k).collect();
        let mut given = before.clone();
        let refusal = unsafe {
            marks_quotas(
                input.count,
                weights.as_ptr(),
                weights.len(),
                given.as_mut_ptr(),
                given.len(),
            )
        };
        let wanted = quotas_of_01(input.count, weights, before);
        tally.count((refusal, &given) == (wanted.0, &wanted.1), || {
            let bits: Vec<String> =
                weights.iter().map(|w| format!("{:016x}", w.to_bits())).collect();
            let text = format!(
                "count {} weights {bits:?}: {refusal} {given:?}, not {wanted:?}\n",
                input.count
            );
            (format!("{number}.txt"), text.into_bytes())
        });
    })
}

fn quotas_of_01(count: u64, weights: &[f64], mut slice: Vec<u64>) -> (u8, Vec<u64>) {
    if count > 2_000 || weights.len() > 16 || weights.iter().any(|weight| *weight < 0.0) {
        return (18, slice);
    }
    if slice.len() < weights.len() {
        return (19, slice);
    }
    let quotas = layers::apportion(count as usize, weights);
    for (entry, quota) in slice.iter_mut().zip(quotas) {
        *entry = quota as u64;
    }
    (0, slice)
}
