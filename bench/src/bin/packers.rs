//! The lattices and low discrepancy whole, the random packer without and with its relaxation, and the relaxation alone,
//! on one zone, beside the Rust original.
use bench::packing::Zone;
use bench::{Bits, line, time};
use oracle::geometry::primitives::Point;
use oracle::plotting::glyphs::GlyphArrangement;
use oracle::plotting::glyphs::discs::layers::{self, Packing};
use probes::flat_points;
use std::f64::consts::PI;

/// The arrangements that draw nothing at random.
const STEADY: [(&str, GlyphArrangement); 3] = [
    ("uniform", GlyphArrangement::Uniform),
    ("rectangular", GlyphArrangement::Rectangular),
    ("low discrepancy", GlyphArrangement::LowDiscrepancy),
];

const ATTEMPTS: u32 = 200;

/// A whole packing of each steady arrangement: strict, and spread where it is a lattice.
fn steady(quota: usize, edges: usize, bits: &mut Bits) {
    let zone = Zone::star(edges, bits);
    // Parts of the area that the marks cover.
    let covers: Vec<f64> = (0..6).map(|_| 0.25 + 0.1 * bits.unit()).collect();
    let radius = |cover: f64| (cover * zone.piece.area() / (PI * quota as f64)).sqrt();
    for (name, arrangement) in STEADY {
        let packing = |cover: f64| Packing {
            arrangement,
            quota,
            precision: 0.5,
            attempts: ATTEMPTS,
            radius: radius(cover),
            gap: 0.1,
            boundary_gap: 0.1,
            obstacles: &[],
            spread: true,
            strict: true,
            state: 0,
        };
        let rust = |cover: f64| flat_points(&layers::pack_piece(&zone.piece, &packing(cover)).0);
        let ours = |cover: f64| zone.pack(&packing(cover)).0;
        assert!(covers.iter().all(|&c| rust(c) == ours(c)));
        line(&format!("{name}, {quota} marks, {edges} edges"), time(&covers, rust), time(&covers, ours));
    }
}

fn random(quota: usize, bits: &mut Bits) {
    let zone = Zone::star(16, bits);
    // Marks that fill a third of the zone.
    let radius = (zone.piece.area() / (3.0 * PI * quota as f64)).sqrt();
    let packing = |state: u64, spread: bool| Packing {
        arrangement: GlyphArrangement::Random,
        quota,
        precision: 1.0,
        attempts: ATTEMPTS,
        radius,
        gap: 0.0,
        boundary_gap: 0.0,
        obstacles: &[],
        spread,
        strict: false,
        state,
    };
    let states: Vec<u64> = (0..3).map(|_| bits.draw()).collect();
    for (name, spread) in [("thrown", false), ("random", true)] {
        let rust = |state: u64| {
            let (spots, state) = layers::pack_piece(&zone.piece, &packing(state, spread));
            (flat_points(&spots), state)
        };
        let ours = |state: u64| zone.pack(&packing(state, spread));
        assert!(states.iter().all(|&s| rust(s) == ours(s)));
        line(&format!("{name}, {quota} marks, 16 edges"), time(&states, rust), time(&states, ours));
    }
    let (thrown, _) = layers::pack_piece(&zone.piece, &packing(states[0], false));
    relaxation(&zone, &thrown, radius);
}

fn relaxation(zone: &Zone, thrown: &[Point], radius: f64) {
    let rust = |spacing: f64| {
        let mut spots = thrown.to_vec();
        layers::relax_scatter(&mut spots, &zone.piece, &[], spacing, radius);
        flat_points(&spots)
    };
    let ours = |spacing: f64| {
        let mut spots = flat_points(thrown);
        zone.lent().relax_scatter(&[], spacing, radius, &mut spots);
        spots
    };
    let spacings = [2.0 * radius];
    assert!(rust(spacings[0]) == ours(spacings[0]));
    line(&format!("relaxation, {} marks, 16 edges", thrown.len()), time(&spacings, rust), time(&spacings, ours));
}

fn main() {
    let mut bits = Bits(0x9e37_79b9_7f4a_7c15);
    println!("{:<56} {:>12} {:>12} {:>7}", "one zone", "Rust", "ours", "times");
    for quota in [100, 500, 1_100, 2_000] {
        steady(quota, 8, &mut bits);
        steady(quota, 64, &mut bits);
        random(quota, &mut bits);
    }
}
