//! Rings in 1/1024, around a centre and of a size.

use super::draft::{Piece, Ring};
use crate::rng::Rng;

const FARTHEST: i64 = 1_048_576;

#[derive(Clone, Copy)]
pub struct Spot {
    pub x: i64,
    pub y: i64,
    pub size: i64,
}

impl Spot {
    pub fn vertex(self, dx: f64, dy: f64) -> [i32; 2] {
        let place = |c: i64, d: f64| (c + d.round() as i64).clamp(-FARTHEST, FARTHEST) as i32;
        [place(self.x, dx), place(self.y, dy)]
    }

    fn ring(self, corners: &[(f64, f64)]) -> Ring {
        let half = self.size as f64 / 2.0;
        corners.iter().map(|(x, y)| self.vertex(x * half, y * half)).collect()
    }
}

pub fn rectangle(spot: Spot, width: i64, height: i64) -> Ring {
    let (w, h) = (width as f64 / 2.0, height as f64 / 2.0);
    [(-w, -h), (w, -h), (w, h), (-w, h)].iter().map(|(x, y)| spot.vertex(*x, *y)).collect()
}

pub fn square(spot: Spot) -> Ring {
    rectangle(spot, spot.size, spot.size)
}

pub fn diamond(spot: Spot) -> Ring {
    spot.ring(&[(-1.0, 0.0), (0.0, -1.0), (1.0, 0.0), (0.0, 1.0)])
}

/// A ring around the centre whose corners lie at `reach(k)` of half the size.
fn around(spot: Spot, corners: usize, turn: f64, mut reach: impl FnMut(usize) -> f64) -> Ring {
    let half = spot.size as f64 / 2.0;
    (0..corners)
        .map(|k| {
            let (x, y) = on_circle(4.0 * (k as f64 + turn) / corners as f64);
            let far = reach(k) * half;
            spot.vertex(far * x, far * y)
        })
        .collect()
}

/// A point of the unit circle, `quarters` of it around, by exact operations
/// alone, so that every machine makes the same ring.
fn on_circle(quarters: f64) -> (f64, f64) {
    let quarter = quarters.floor();
    let t = quarters - quarter;
    let (x, y) = ((1.0 - t * t) / (1.0 + t * t), 2.0 * t / (1.0 + t * t));
    match quarter as i64 % 4 {
        0 => (x, y),
        1 => (-y, x),
        2 => (-x, -y),
        _ => (y, -x),
    }
}

pub fn convex(rng: &mut Rng, spot: Spot) -> Ring {
    let corners = rng.between(3, 12) as usize;
    let turn = rng.unit();
    around(spot, corners, turn, |_| 1.0)
}

pub fn concave(rng: &mut Rng, spot: Spot) -> Ring {
    let notched: [&[(f64, f64)]; 4] = [
        &[(-1.0, -1.0), (1.0, -1.0), (1.0, 0.0), (0.0, 0.0), (0.0, 1.0), (-1.0, 1.0)],
        &[
            (-1.0, -1.0),
            (1.0, -1.0),
            (1.0, 1.0),
            (0.5, 1.0),
            (0.5, -0.5),
            (-0.5, -0.5),
            (-0.5, 1.0),
            (-1.0, 1.0),
        ],
        &[
            (-1.0, -1.0),
            (1.0, -1.0),
            (1.0, 1.0),
            (0.6, 1.0),
            (0.6, 0.0),
            (0.2, 0.0),
            (0.2, 1.0),
            (-0.2, 1.0),
            (-0.2, 0.0),
            (-0.6, 0.0),
            (-0.6, 1.0),
            (-1.0, 1.0),
        ],
        &[
            (-1.0, -1.0),
            (0.0, -0.3),
            (1.0, -1.0),
            (0.3, 0.0),
            (1.0, 1.0),
            (0.0, 0.3),
            (-1.0, 1.0),
            (-0.3, 0.0),
        ],
    ];
    if rng.one_in(2) {
        return spot.ring(rng.pick(&notched));
    }
    let corners = rng.between(5, 16) as usize;
    let reaches: Vec<f64> = (0..corners).map(|_| 0.25 + 0.75 * rng.unit()).collect();
    around(spot, corners, rng.unit(), |k| reaches[k])
}

pub fn crossed(rng: &mut Rng, spot: Spot) -> Ring {
    let half = spot.size as f64 / 2.0;
    let corners = rng.between(4, 9);
    (0..corners)
        .map(|_| spot.vertex((2.0 * rng.unit() - 1.0) * half, (2.0 * rng.unit() - 1.0) * half))
        .collect()
}

/// A crossed ring whose two halves cancel: area 0, with room inside.
pub fn bow_tie(spot: Spot) -> Ring {
    spot.ring(&[(-1.0, -1.0), (1.0, 1.0), (1.0, -1.0), (-1.0, 1.0)])
}

/// A ring folded on one slanted line.
pub fn folded(rng: &mut Rng, spot: Spot) -> Ring {
    let (dx, dy) = (rng.between(1, 9) as f64, rng.between(1, 9) as f64);
    let step = (spot.size as f64 / 24.0).max(1.0).round();
    (0..rng.between(3, 6))
        .map(|_| {
            let along = rng.between(-2, 2) as f64 * step;
            spot.vertex(along * dx, along * dy)
        })
        .collect()
}

pub fn degenerate(rng: &mut Rng, spot: Spot) -> Ring {
    let half = spot.size as f64 / 2.0;
    match rng.index(7) {
        0 => (0..rng.index(3)).map(|k| spot.vertex(k as f64 * half, half)).collect(),
        1 => spot.ring(&[(-1.0, 0.0), (0.0, 0.0), (1.0, 0.0)]),
        2 => spot.ring(&[(0.0, -1.0), (0.0, 1.0), (0.0, 0.5), (0.0, -0.5)]),
        3 => vec![spot.vertex(0.0, 0.0); rng.between(3, 5) as usize],
        4 => bow_tie(spot),
        5 => spot.ring(&[
            (-1.0, -1.0),
            (1.0, -1.0),
            (1.0, -1.0),
            (1.0, 1.0),
            (-1.0, 1.0),
            (-1.0, -1.0),
        ]),
        _ => folded(rng, spot),
    }
}

pub fn sliver(rng: &mut Rng, spot: Spot) -> Ring {
    let thin = rng.scale(1, (spot.size / 8).max(2));
    match rng.index(4) {
        0 => rectangle(spot, spot.size, thin),
        1 => rectangle(spot, thin, spot.size),
        2 => {
            let (half, thin) = (spot.size as f64 / 2.0, thin as f64);
            vec![
                spot.vertex(-half, -half),
                spot.vertex(half, half),
                spot.vertex(half - thin, half),
                spot.vertex(-half, thin - half),
            ]
        }
        _ => {
            let (half, thin) = (spot.size as f64 / 2.0, thin as f64);
            vec![spot.vertex(-half, 0.0), spot.vertex(half, -thin), spot.vertex(half, thin)]
        }
    }
}

/// Holes inside, across and around the outer ring, also degenerate ones.
pub fn holed(rng: &mut Rng, spot: Spot) -> Piece {
    let mut rings = vec![if rng.one_in(3) { concave(rng, spot) } else { square(spot) }];
    let most = if rng.one_in(8) { 8 } else { 3 };
    for _ in 0..rng.between(1, most) {
        let apart = spot.size / 3;
        let hole = Spot {
            x: spot.x + rng.between(-apart, apart),
            y: spot.y + rng.between(-apart, apart),
            size: rng.scale((spot.size / 20).max(2), (spot.size / 2).max(3)),
        };
        rings.push(match rng.index(12) {
            0 => degenerate(rng, hole),
            1 => square(Spot { size: spot.size + 200, ..spot }),
            2 => square(spot),
            3 | 4 => concave(rng, hole),
            5 | 6 => diamond(hole),
            _ => square(hole),
        });
    }
    rings
}

/// Turns the ring's start, and its direction one time in two.
pub fn turned(rng: &mut Rng, mut ring: Ring) -> Ring {
    if !ring.is_empty() {
        let start = rng.index(ring.len());
        ring.rotate_left(start);
    }
    if rng.one_in(2) {
        ring.reverse();
    }
    ring
}
