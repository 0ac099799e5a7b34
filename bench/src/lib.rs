//! What the programs share: random bits, a zone, a whole job over lent slices, and the time of a call.
mod beside;
pub mod floors;
mod lent;
pub mod packing;

pub use beside::measure;
pub use lent::Lent;

use std::f64::consts::TAU;
use std::hint::black_box;
use std::time::{Duration, Instant};

/// The arrangements, in the order of the job's byte.
pub const ARRANGEMENTS: [&str; 4] = ["Uniform", "Rectangular", "LowDiscrepancy", "Random"];

pub struct Bits(pub u64);

impl Bits {
    pub fn draw(&mut self) -> u64 {
        self.0 ^= self.0 << 13;
        self.0 ^= self.0 >> 7;
        self.0 ^= self.0 << 17;
        self.0
    }

    /// A float from -1 to 1.
    pub fn unit(&mut self) -> f64 {
        (self.draw() >> 11) as f64 / (1u64 << 52) as f64 - 1.0
    }
}

/// A star of n vertices, in 1/1024, of radius up to 10.
fn star(n: usize, bits: &mut Bits) -> Vec<[i32; 2]> {
    (0..n)
        .map(|k| {
            let (r, a) = (10240.0 * (0.8 + 0.2 * bits.unit()), TAU * k as f64 / n as f64);
            [(r * a.cos()) as i32, (r * a.sin()) as i32]
        })
        .collect()
}

/// Nanoseconds a call, the best of five rounds over all values.
pub fn time<T: Copy, R>(values: &[T], f: impl Fn(T) -> R) -> f64 {
    let mut best = f64::INFINITY;
    for _ in 0..5 {
        let start = Instant::now();
        for &x in values {
            black_box(f(black_box(x)));
        }
        best = best.min(start.elapsed().as_secs_f64() * 1e9 / values.len() as f64);
    }
    best
}

/// Nanoseconds a call, the best of several within a second or so.
pub fn best(mut call: impl FnMut()) -> f64 {
    let (mut best, start) = (f64::INFINITY, Instant::now());
    while best == f64::INFINITY || start.elapsed() < Duration::from_millis(500) {
        let turn = Instant::now();
        call();
        best = best.min(turn.elapsed().as_secs_f64() * 1e9);
    }
    best
}

fn scaled(ns: f64) -> String {
    match ns {
        _ if ns < 1e4 => format!("{ns:.2} ns"),
        _ if ns < 1e7 => format!("{:.2} us", ns / 1e3),
        _ => format!("{:.2} ms", ns / 1e6),
    }
}

/// A line of the table: the other's time, ours, and how many times as fast we are.
pub fn line(name: &str, other: f64, ours: f64) {
    println!("{name:<56} {:>12} {:>12} {:>7.2}", scaled(other), scaled(ours), other / ours);
}
