//! The root beside the hardware's: side by side, where none waits for another, and in a row, where each waits for the
//! one before.
use bench::{Bits, best, line};
use probes::entries::marks_root;
use std::hint::black_box;

const VALUES: usize = 100_000;

fn side_by_side(values: &[f64], root: impl Fn(f64) -> f64) -> f64 {
    best(|| {
        black_box(values.iter().fold(0, |bits, &x| bits ^ root(x).to_bits()));
    }) / VALUES as f64
}

fn in_a_row(values: &[f64], root: impl Fn(f64) -> f64) -> f64 {
    best(|| {
        black_box(values.iter().fold(0.0, |before, &x| root(x + 0.0 * before)));
    }) / VALUES as f64
}

fn main() {
    let mut bits = Bits(0x9e37_79b9_7f4a_7c15);
    let kinds: [(&str, fn(u64) -> f64); 3] = [
        ("squared distances, 2^-20..2^30", |b| f64::from_bits((1003 + b % 50) << 52 | b >> 12)),
        ("every exponent", |b| f64::from_bits(b >> 1 & 0x7fef_ffff_ffff_ffff)),
        ("subnormal", |b| f64::from_bits(b >> 12)),
    ];
    println!("{:<56} {:>12} {:>12} {:>7}", "root", "hardware", "ours", "times");
    for (name, make) in kinds {
        let values: Vec<f64> = (0..VALUES).map(|_| make(bits.draw())).collect();
        line(
            &format!("{name}, side by side"),
            side_by_side(&values, f64::sqrt),
            side_by_side(&values, |x| marks_root(x)),
        );
        line(&format!("{name}, in a row"), in_a_row(&values, f64::sqrt), in_a_row(&values, |x| marks_root(x)));
    }
}
