//! Whole jobs, from bytes to sheet, beside the Rust original: each floor with every arrangement, with an automatic
//! radius and with that radius stated. The files named are jobs too.
use bench::{ARRANGEMENTS, Lent, floors, measure};

fn main() {
    let mut lent = Lent::new();
    let mut floors: Vec<(String, Vec<u8>)> = floors::all().into_iter().map(|(name, job)| (name.into(), job)).collect();
    for path in std::env::args().skip(1) {
        floors.push((path.clone(), std::fs::read(&path).unwrap()));
    }
    println!("{:<56} {:>12} {:>12} {:>7}", "whole jobs", "Rust", "ours", "times");
    for (floor, mut bytes) in floors {
        for (byte, arrangement) in ARRANGEMENTS.iter().enumerate() {
            bytes[5] = byte as u8;
            bytes[7..12].fill(0);
            let radius = measure(&format!("{floor}: {arrangement}, auto"), &bytes, &mut lent);
            if let Some(radius) = radius.filter(|r| *r > 0.0) {
                bytes[7] = 1;
                bytes[8..12].copy_from_slice(&((radius * 1024.0) as u32).to_be_bytes());
                measure(&format!("{floor}: {arrangement}, stated"), &bytes, &mut lent);
            }
        }
    }
}
