//! Clearance, inside test, area, bounds, near rule and deepest point.

use harness::comparison::Run;
use harness::layer_inputs::{Floor, PieceInput, floor, gaps, obstacles, pieces};
use harness::rng::Rng;
use harness::tally::{Tally, on_two_threads, same_float, same_floats};
use oracle::judge::unless_too_many_wait;
use oracle::plotting::glyphs::discs::layers;
use oracle::stand_ins::most_waiting;

use crate::lent;

/// What is lent for an answer holds this before.
const MARK: f64 = -12_345.678;

/// Runs over some pieces of the mixed run's floors. The comparison answers
/// whether a case is equal; the floor's job is kept where it is not.
fn over_pieces(
    name: &str,
    run: &Run,
    compare: impl Fn(&Floor, &PieceInput, &mut Rng, &mut dyn FnMut(bool)) + Sync,
) -> Tally {
    on_two_threads(name, &run.kept, run.jobs, |tally, number| {
        let Some(floor) = floor(number) else { return };
        let mut rng = Rng::new(77, number);
        for (index, input) in pieces(&floor).iter().enumerate() {
            compare(&floor, input, &mut rng, &mut |same| {
                tally.count(same, || {
                    (format!("{}-piece-{index}.job", floor.name), floor.bytes.clone())
                });
            });
        }
    })
}

pub fn signed_clearance(run: &Run) -> Tally {
    over_pieces("signed-clearance", run, |_, input, rng, judge| {
        for [x, y] in input.places(rng) {
            let given = lent(input).signed_clearance(x, y);
            judge(same_float(given, layers::signed_clearance(x, y, &input.piece)));
        }
    })
}

pub fn four_clearances(run: &Run) -> Tally {
    over_pieces("four-clearances", run, |_, input, rng, judge| {
        for four in input.places(rng).as_chunks().0 {
            let mut given = [MARK; 4];
            lent(input).four_clearances(four, &mut given);
            let wanted = four.map(|[x, y]| layers::signed_clearance(x, y, &input.piece));
            judge(same_floats(&given, &wanted));
        }
    })
}

pub fn inside(run: &Run) -> Tally {
    over_pieces("inside", run, |_, input, rng, judge| {
        for [x, y] in input.places(rng) {
            let given = probes::point_in_polygon(input.outer(), x, y);
            let wanted = layers::point_in_polygon(x, y, &input.piece.outer);
            judge(given == wanted);
        }
    })
}

pub fn area(run: &Run) -> Tally {
    over_pieces("area", run, |_, input, _, judge| {
        judge(same_float(lent(input).area(), input.piece.area()));
    })
}

pub fn bounds(run: &Run) -> Tally {
    over_pieces("bounds", run, |_, input, _, judge| {
        let mut given = [MARK; 4];
        let tag = probes::ring_bounds(input.outer(), &mut given);
        let wanted = match layers::ring_bounds(input.piece.outer.vertices()) {
            Some((min_x, max_x, min_y, max_y)) => (true, [min_x, max_x, min_y, max_y]),
            None => (false, [MARK; 4]),
        };
        judge(tag == wanted.0 && same_floats(&given, &wanted.1));
    })
}

pub fn near(run: &Run) -> Tally {
    over_pieces("near", run, |floor, input, rng, judge| {
        let obstacles = obstacles(&floor.job);
        let inset = input.radius(floor, rng) * (1.0 + gaps(&floor.job).1);
        let mut flags = vec![9u8; obstacles.len()];
        let count = lent(input).obstacles_near(&obstacles, inset, &mut flags);
        let one_by_one =
            |k: usize| layers::obstacles_near(&input.piece, &obstacles[k..=k], inset).len();
        let wanted: Vec<u8> = (0..obstacles.len()).map(|k| one_by_one(k) as u8).collect();
        let number = layers::obstacles_near(&input.piece, &obstacles, inset).len();
        judge(flags == wanted && count == number as u64);
    })
}

pub fn deepest_point(run: &Run) -> Tally {
    over_pieces("deepest-point", run, |floor, input, _, judge| {
        let precision = f64::from(floor.job.head.precision) / 1024.0;
        let (mut found, mut waiting) = ([MARK; 3], u32::MAX);
        let tag = lent(input).deepest_point(precision, &mut found, &mut waiting);
        let searched = unless_too_many_wait(|| layers::deepest_point(&input.piece, precision).0);
        let wanted = match searched {
            Some(Some((point, clearance))) => (1, [point.x(), point.y(), clearance]),
            Some(None) => (0, [MARK; 3]),
            None => (15, [MARK; 3]),
        };
        let same = tag == wanted.0 && same_floats(&found, &wanted.1);
        judge(same && waiting as usize == most_waiting());
    })
}
