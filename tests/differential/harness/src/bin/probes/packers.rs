//! Each packer on one piece, and the relaxation.

use harness::comparison::Run;
use harness::layer_inputs::{floor, gaps, obstacles, pieces};
use harness::rng::Rng;
use harness::tally::{Tally, on_two_threads, same_floats};
use oracle::judge::unless_too_many_wait;
use oracle::plotting::glyphs::GlyphArrangement;
use oracle::plotting::glyphs::discs::layers::{self, Packing};
use probes::{Packed, flat_points};

use crate::lent;

pub fn uniform(run: &Run) -> Tally {
    compare(run, "uniform", GlyphArrangement::Uniform)
}

pub fn rectangular(run: &Run) -> Tally {
    compare(run, "rectangular", GlyphArrangement::Rectangular)
}

pub fn low_discrepancy(run: &Run) -> Tally {
    compare(run, "low-discrepancy", GlyphArrangement::LowDiscrepancy)
}

pub fn random(run: &Run) -> Tally {
    compare(run, "random", GlyphArrangement::Random)
}

fn compare(run: &Run, name: &str, arrangement: GlyphArrangement) -> Tally {
    let lattice = matches!(arrangement, GlyphArrangement::Uniform | GlyphArrangement::Rectangular);
    on_two_threads(name, &run.kept, run.jobs, |tally, number| {
        let Some(floor) = floor(number) else { return };
        let mut rng = Rng::new(78, number);
        let obstacles = obstacles(&floor.job);
        let (gap, boundary_gap) = gaps(&floor.job);
        for (index, input) in pieces(&floor).iter().enumerate() {
            // A lattice's trial only counts, and is strict.
            let spread = rng.one_in(2);
            let counts = lattice && !spread;
            let packing = Packing {
                arrangement,
                quota: input.quota,
                precision: f64::from(floor.job.head.precision) / 1024.0,
                attempts: floor.job.head.attempts,
                radius: input.radius(&floor, &mut rng),
                gap,
                boundary_gap,
                obstacles: &obstacles,
                spread,
                strict: counts || rng.one_in(2),
                state: rng.bits(),
            };
            if packing.quota == 0 {
                continue;
            }
            let packed = unless_too_many_wait(|| layers::pack_piece(&input.piece, &packing));
            let Some((spots, state)) = packed else { continue };
            let as_the_source = |given: &Packed| {
                given.placed == spots.len() as u64
                    && (counts
                        || same_floats(&given.buffer[..2 * spots.len()], &flat_points(&spots)))
                    && given.state == state
            };
            let same = as_the_source(&lent(input).pack(&packing))
                && as_the_source(&lent(input).pack_with_flags(&packing));
            tally
                .count(same, || (format!("{}-piece-{index}.job", floor.name), floor.bytes.clone()));
        }
    })
}

pub fn relaxation(run: &Run) -> Tally {
    on_two_threads("relaxation", &run.kept, run.jobs, |tally, number| {
        let Some(floor) = floor(number) else { return };
        let mut rng = Rng::new(79, number);
        let all = obstacles(&floor.job);
        let (gap, boundary_gap) = gaps(&floor.job);
        for (index, input) in pieces(&floor).iter().enumerate() {
            let radius = input.radius(&floor, &mut rng);
            let (spacing, inset) = (2.0 * radius * (1.0 + gap), radius * (1.0 + boundary_gap));
            let packing = Packing {
                arrangement: GlyphArrangement::Random,
                quota: input.quota,
                precision: 1.0,
                attempts: floor.job.head.attempts.max(10),
                radius,
                gap,
                boundary_gap,
                obstacles: &all,
                spread: false,
                strict: false,
                state: rng.bits(),
            };
            let (mut spots, _) = layers::pack_piece(&input.piece, &packing);
            if spots.is_empty() {
                continue;
            }
            let near = layers::obstacles_near(&input.piece, &all, inset);
            let mut given = flat_points(&spots);
            lent(input).relax_scatter(&near, spacing, inset, &mut given);
            layers::relax_scatter(&mut spots, &input.piece, &near, spacing, inset);
            tally.count(same_floats(&given, &flat_points(&spots)), || {
                (format!("{}-piece-{index}.job", floor.name), floor.bytes.clone())
            });
        }
    })
}
