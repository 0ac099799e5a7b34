//! Whole searches for an automatic radius, as jobs, beside the Rust original: a hall like a star, bare and with 16
//! pillars, with more and more marks, in every arrangement.
use bench::floors::{job, one, pillars, round};
use bench::{ARRANGEMENTS, Lent, measure};

const RADIUS: f64 = 40.0;

fn hall(count: u16, pillars: &[[f64; 4]]) -> Vec<u8> {
    job(pillars, &one("hall", count, vec![round(48, RADIUS, 0.2)]))
}

/// Pillars in a grid around the middle of the hall.
fn grid(columns: usize, rows: usize) -> Vec<[f64; 4]> {
    let around = |[x, y, width, height]: [f64; 4]| [x - RADIUS / 2.0, y - RADIUS / 2.0, width, height];
    pillars(columns, rows, RADIUS, RADIUS).into_iter().map(around).collect()
}

fn main() {
    let mut lent = Lent::new();
    println!("{:<56} {:>12} {:>12} {:>7}", "whole searches", "Rust", "ours", "times");
    for (floor, pillars) in [("bare", vec![]), ("16 pillars", grid(4, 4))] {
        for count in [100, 300, 600, 1_100] {
            let mut bytes = hall(count, &pillars);
            for (byte, arrangement) in ARRANGEMENTS.iter().enumerate() {
                bytes[5] = byte as u8;
                measure(&format!("{floor}, {count} marks: {arrangement}"), &bytes, &mut lent);
            }
        }
    }
}
