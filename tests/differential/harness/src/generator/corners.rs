//! Good jobs at the corners: extreme heads, empty zones, crowds, and floors
//! made for rows 15 and 16 and for the end of the lattice walk.

use super::draft::{Draft, DraftZone};
use super::kinds::{self, head, keys, ordinary_spot};
use super::shapes::{self, Spot};
use crate::rng::Rng;

fn zone(draft: &mut Draft, key: &[u8], count: i64, pieces: Vec<super::draft::Piece>) {
    draft.zones.push(DraftZone { key: key.to_vec(), count: count as u16, pieces });
}

pub fn crowd(rng: &mut Rng) -> Draft {
    let spot = ordinary_spot(rng);
    let marks = rng.scale(40, 250);
    let mut draft = head(rng, spot.size, marks);
    draft.attempts = draft.attempts.min(30);
    if rng.one_in(3) {
        kinds::add_pillars(rng, &mut draft, spot);
    }
    let piece = match rng.index(3) {
        0 => shapes::holed(rng, spot),
        1 => vec![shapes::concave(rng, spot)],
        _ => vec![shapes::square(spot)],
    };
    zone(&mut draft, b"Crowd", marks, vec![piece]);
    draft
}

/// Coordinates up to the ends of their range.
pub fn far(rng: &mut Rng) -> Draft {
    let spot = Spot {
        x: rng.between(-400_000, 400_000),
        y: rng.between(-400_000, 400_000),
        size: rng.scale(200_000, 2_097_152),
    };
    let marks = rng.between(1, 8);
    let mut draft = head(rng, spot.size, marks);
    if rng.one_in(3) {
        let (w, h) = (rng.between(1, 1_048_576), rng.between(1, 1_048_576));
        draft.obstacles.push([spot.x as i32, spot.y as i32, w as i32, h as i32]);
    }
    let piece = match rng.index(3) {
        0 => vec![shapes::crossed(rng, spot)],
        1 => vec![shapes::concave(rng, spot)],
        _ => vec![shapes::convex(rng, spot)],
    };
    zone(&mut draft, b"far", marks, vec![piece]);
    draft
}

/// An ordinary job with one number of its head at the end of its range.
pub fn edges(rng: &mut Rng) -> Draft {
    let mut draft = match rng.index(4) {
        0 => kinds::pillars(rng),
        1 => kinds::symmetric(rng),
        2 => kinds::holes(rng),
        _ => kinds::convex(rng),
    };
    match rng.index(10) {
        0 => draft.gap = 16_384,
        1 => draft.boundary_gap = Some(16_384),
        2 => draft.boundary_gap = Some(0),
        3 => draft.precision = 1_048_576,
        4 => draft.precision = 1,
        5 => (draft.arrangement, draft.attempts) = (3, 0),
        6 => {
            (draft.arrangement, draft.attempts) = (3, 2_000);
            draft.zones[0].count = draft.zones[0].count.min(6);
        }
        7 => draft.radius = Some(0),
        8 => draft.radius = Some(1_048_576),
        _ => (draft.gap, draft.boundary_gap) = (0, Some(16_384)),
    }
    draft
}

/// Zones without marks or pieces, among others and alone.
pub fn empty(rng: &mut Rng) -> Draft {
    let mut draft = kinds::pieces(rng);
    if rng.one_in(4) {
        draft.radius = Some(0);
    }
    match rng.index(4) {
        0 => draft.zones.clear(),
        1 => draft.zones.iter_mut().for_each(|zone| zone.count = 0),
        2 => draft.zones.iter_mut().for_each(|zone| zone.pieces.clear()),
        _ => {
            for zone in &mut draft.zones {
                match rng.index(3) {
                    0 => zone.count = 0,
                    1 => zone.pieces.clear(),
                    _ => {}
                }
            }
        }
    }
    draft
}

/// Searches in which about 1,600 cells wait.
pub fn search(rng: &mut Rng) -> Draft {
    let marks = rng.between(1, 3);
    let mut draft = head(rng, 4_096, marks);
    let piece = if rng.one_in(2) {
        let thin = 2 * rng.scale(1, 650);
        let cells = rng.between(1_594, 1_604);
        let long = thin * cells - if thin > 4 && rng.one_in(3) { thin / 2 } else { 0 };
        let spot = Spot { x: 0, y: 0, size: long };
        draft.precision = rng.pick(&[1, thin / 2, thin, 2 * thin, 1_048_576]).max(1) as u32;
        vec![match rng.index(2) {
            0 => shapes::rectangle(spot, long, thin),
            _ => shapes::rectangle(spot, thin, long),
        }]
    } else {
        let size = 2 * rng.scale(512, 16_384);
        let spot = Spot { x: 0, y: 0, size };
        draft.precision = (size / rng.pick(&[256, 512, 1024, 2048])).max(1) as u32;
        let hole = Spot { size: size * rng.between(4, 7) / 8, ..spot };
        vec![shapes::square(spot), shapes::square(hole)]
    };
    if draft.radius.is_some() {
        draft.radius = Some(rng.between(1, 64) as u32);
        draft.arrangement = rng.pick(&[0, 1, 2, 2, 3]);
    }
    draft.attempts = draft.attempts.min(10);
    zone(&mut draft, b"search", marks, vec![piece]);
    if rng.one_in(4) {
        let beside = Spot { x: 0, y: 400_000, size: 8_192 };
        draft.zones[0].pieces.push(vec![shapes::square(beside)]);
    }
    draft
}

/// Ceilings about 2^-10.
pub fn ceiling(rng: &mut Rng) -> Draft {
    let marks = rng.between(1, 4);
    let mut draft = head(rng, 16, marks);
    draft.radius = None;
    draft.precision = 1;
    draft.gap = rng.pick(&[0, 0, 512, 1_024, 3_072, 16_384]);
    draft.boundary_gap = rng.pick(&[None, Some(0), Some(1_024), Some(15_360)]);
    let factor = 1 + i64::from(draft.boundary_gap.unwrap_or(draft.gap)) / 1_024;
    let side = (2 * factor + rng.between(-1, 2)).max(1);
    let spot = Spot { x: 0, y: 0, size: side };
    let piece = vec![match rng.index(3) {
        0 => shapes::diamond(spot),
        1 => shapes::rectangle(spot, side, side * rng.between(1, 3)),
        _ => shapes::square(spot),
    }];
    zone(&mut draft, b"ceiling", marks, vec![piece]);
    if rng.one_in(4) {
        let beside = Spot { x: 4_096, y: 0, size: 2_048 };
        zone(&mut draft, b"d", 1, vec![vec![shapes::square(beside)]]);
    }
    draft
}

/// A shaft with a room above it that is so far up, row by row, that the walk
/// ends among the room's first rows.
pub fn walk(rng: &mut Rng) -> Draft {
    let mut draft = head(rng, 4_096, 1);
    draft.arrangement = rng.index(2) as u8;
    (draft.gap, draft.boundary_gap) = (0, Some(rng.pick(&[0, 0, 512])));
    let radius = rng.between(1, 12);
    draft.radius = Some(radius as u32);
    let spacing = 2 * radius;
    let columns = rng.between(940, 1_060);
    let row = if draft.arrangement == 0 { 0.866_025_403_784 } else { 1.0 };
    let below = 1_000_000 / columns - rng.between(0, 3);
    let room = 20 * spacing;
    draft.precision = (room / 4) as u32;
    let (width, shaft) = ((columns * spacing) as i32, radius as i32);
    let floor = (below as f64 * spacing as f64 * row) as i32;
    let top = floor + room as i32;
    let ring = vec![[0, 0], [shaft, 0], [shaft, floor], [width, floor], [width, top], [0, top]];
    let marks = rng.between(1_500, 1_999);
    zone(&mut draft, &keys(rng, 1)[0], marks, vec![vec![ring]]);
    draft
}

/// A zone whose ring is folded on one falling line, beside an ordinary zone:
/// the added epsilon may put a point inside the fold.
pub fn folded(rng: &mut Rng) -> Draft {
    let mut draft = head(rng, 4_096, 2);
    draft.radius = None;
    draft.precision = rng.pick(&[1, 4]);
    let (dx, dy) = rng.pick(&[(-1, 1), (-1, 1), (-1, 1), (-1, 3), (-3, 5)]);
    let length = rng.between(20, 400);
    let x = rng.between(-1_200, 1_200);
    let y = rng.between(-2, 2) - dy * rng.between(1, length - 1);
    let stops = [0, rng.between(1, length - 1), length, rng.between(1, length - 1)];
    let ring = stops.map(|k| [(x + k * dx) as i32, (y + k * dy) as i32]);
    let room = Spot { x: 9_000, y: 0, size: rng.between(1_024, 8_192) };
    let marks = rng.between(1, 3);
    zone(&mut draft, b"fold", rng.between(1, 3), vec![vec![ring.to_vec()]]);
    zone(&mut draft, b"room", marks, vec![vec![shapes::square(room)]]);
    draft
}

/// A floor in which the 1,024th candidate of the sequence, and none before
/// it, is in the only room.
pub fn budget(rng: &mut Rng) -> Draft {
    let unit = rng.between(64, 1_000) as i32;
    let mut draft = head(rng, i64::from(unit), 4);
    draft.arrangement = 2;
    draft.gap = 0;
    draft.boundary_gap = None;
    draft.radius = Some((unit / rng.pick(&[8, 16])) as u32);
    let wide = 1_024 * unit;
    let high = rng.between(i64::from(wide) / 2, i64::from(wide)) as i32;
    let (mut index, mut weight, mut level) = (1_024, 1.0 / 3.0, 0.0);
    while index > 0 {
        level += f64::from(index % 3) * weight;
        index /= 3;
        weight /= 3.0;
    }
    let middle = (f64::from(high) * level) as i32;
    let (low, top) = (middle - unit / 2, middle + unit / 2);
    let ring = vec![
        [0, 0],
        [wide, 0],
        [wide, 1],
        [1, 1],
        [1, low],
        [unit, low],
        [unit, top],
        [1, top],
        [1, high],
        [0, high],
    ];
    zone(&mut draft, b"budget", rng.between(2, 10), vec![vec![ring]]);
    draft
}
