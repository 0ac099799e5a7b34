//! Clearances and deepest points on rings of several sizes, beside the Rust original.
use bench::packing::Zone;
use bench::{Bits, line, time};
use oracle::plotting::glyphs::discs::layers;
use std::cell::RefCell;

type Place = [f64; 2];

fn main() {
    let mut bits = Bits(0x9e37_79b9_7f4a_7c15);
    println!("{:<56} {:>12} {:>12} {:>7}", "clearance", "Rust", "ours", "times");
    for n in [4, 16, 64, 256] {
        let zone = Zone::star(n, &mut bits);
        let places: Vec<Place> = (0..100_000).map(|_| [11.0 * bits.unit(), 11.0 * bits.unit()]).collect();
        signed(n, &zone, &places);
        at_least(n, &zone, &places);
        deepest(n, &zone, &mut bits);
    }
}

fn signed(n: usize, zone: &Zone, places: &[Place]) {
    let lent = zone.lent();
    let rust = |[x, y]: Place| layers::signed_clearance(x, y, &zone.piece);
    let ours = |[x, y]: Place| lent.signed_clearance(x, y);
    assert!(places.iter().all(|&p| ours(p).to_bits() == rust(p).to_bits()));
    line(&format!("signed, {n} edges"), time(places, rust), time(places, ours));
    let fours = places.as_chunks().0;
    let rust_four = |p: [Place; 4]| p.map(rust);
    let four = |p: [Place; 4]| {
        let mut found = [0.0; 4];
        lent.four_clearances(&p, &mut found);
        found
    };
    assert!(fours.iter().all(|&p| four(p) == rust_four(p)));
    line(&format!("signed, four at once, {n} edges"), time(fours, rust_four) / 4.0, time(fours, four) / 4.0);
}

fn at_least(n: usize, zone: &Zone, places: &[Place]) {
    let c = 0.5;
    let lent = zone.lent();
    let rust = |[x, y]: Place| layers::signed_clearance(x, y, &zone.piece) >= c;
    let ours = |[x, y]: Place| lent.clearance_at_least(x, y, c);
    assert!(places.iter().all(|&p| ours(p) == rust(p)));
    line(&format!("at least {c}, {n} edges"), time(places, rust), time(places, ours));
    let many: Vec<&[Place]> = places.chunks(1_000).collect();
    let rust_count = |p: &[Place]| p.iter().filter(|q| rust(**q)).count() as u64;
    let count = |p: &[Place]| lent.count_clear(p, c);
    assert!(many.iter().all(|p| count(p) == rust_count(p)));
    let name = format!("at least {c}, margin kept, {n} edges");
    line(&name, time(&many, rust_count) / 1_000.0, time(&many, count) / 1_000.0);
}

fn deepest(n: usize, zone: &Zone, bits: &mut Bits) {
    let lent = zone.lent();
    let cells = RefCell::new(vec![0.0; 8_000]);
    let rust = |p: f64| layers::deepest_point(&zone.piece, p).0.map_or(0.0, |(_, d)| d);
    let ours = |p: f64| lent.depth(p, &mut cells.borrow_mut());
    let precisions: Vec<f64> =
        (0..1_000).map(|_| 0.05 + 0.45 * bits.unit().abs()).filter(|&p| ours(p) >= 0.0).collect();
    assert!(precisions.iter().all(|&p| ours(p).to_bits() == rust(p).to_bits()));
    line(&format!("deepest point, {n} edges"), time(&precisions, rust), time(&precisions, ours));
}
