//! Good jobs by kind: each kind is a floor, a head and some pillars.

use super::draft::{Draft, DraftZone, Piece};
use super::shapes::{self, Spot};
use crate::rng::Rng;

const LETTERS: &[u8] = b"0123456789ABCDEFGHIJKLMNOPQRSTUVWXYZabcdefghijklmnopqrstuvwxyz";

/// A head with ordinary numbers, for a floor of `size` and `marks` marks.
pub fn head(rng: &mut Rng, size: i64, marks: i64) -> Draft {
    Draft {
        arrangement: rng.index(4) as u8,
        policy: rng.index(2) as u8,
        radius: rng.one_in(2).then(|| fitting_radius(rng, size, marks)),
        gap: ordinary_gap(rng),
        boundary_gap: rng.one_in(3).then(|| ordinary_gap(rng)),
        precision: (size / rng.pick(&[16, 64, 256, 1024])).clamp(1, 1_048_576) as u32,
        attempts: rng.pick(&[0, 1, 3, 10, 30, 30, 60, 100]),
        seed: if rng.one_in(8) { 0 } else { rng.bits() },
        obstacles: Vec::new(),
        zones: Vec::new(),
    }
}

fn ordinary_gap(rng: &mut Rng) -> u32 {
    match rng.index(4) {
        0 => 0,
        1 => 256,
        _ => rng.between(1, 1024) as u32,
    }
}

/// A radius at which some and sometimes all of the marks fit.
fn fitting_radius(rng: &mut Rng, size: i64, marks: i64) -> u32 {
    let share = size as f64 / (4.0 * marks.max(1) as f64).sqrt();
    let part = rng.pick(&[0.1, 0.2, 0.35, 0.5, 0.75, 1.0]);
    ((share * part) as i64).clamp(1, 1_048_576) as u32
}

pub fn ordinary_spot(rng: &mut Rng) -> Spot {
    Spot {
        x: rng.between(-20_000, 20_000),
        y: rng.between(-20_000, 20_000),
        size: rng.scale(512, 40_000),
    }
}

fn few_marks(rng: &mut Rng) -> i64 {
    match rng.index(10) {
        0 => 1,
        1 => 2,
        9 => rng.between(10, 60),
        _ => rng.between(1, 12),
    }
}

/// Keys that rise, of one to three characters.
pub fn keys(rng: &mut Rng, number: usize) -> Vec<Vec<u8>> {
    let mut keys: Vec<Vec<u8>> = Vec::new();
    while keys.len() < number {
        let length = rng.between(1, 3);
        let key = (0..length).map(|_| rng.pick(LETTERS)).collect();
        if !keys.contains(&key) {
            keys.push(key);
        }
    }
    keys.sort();
    keys
}

fn one_zone(rng: &mut Rng, mut draft: Draft, marks: i64, pieces: Vec<Piece>) -> Draft {
    let key = keys(rng, 1).remove(0);
    draft.zones.push(DraftZone { key, count: marks as u16, pieces });
    draft
}

/// One zone of one ring, now and then with pillars.
fn simple(rng: &mut Rng, ring: impl Fn(&mut Rng, Spot) -> super::draft::Ring) -> Draft {
    let spot = ordinary_spot(rng);
    let marks = few_marks(rng);
    let mut draft = head(rng, spot.size, marks);
    if rng.one_in(3) {
        add_pillars(rng, &mut draft, spot);
    }
    let ring = ring(rng, spot);
    let ring = shapes::turned(rng, ring);
    one_zone(rng, draft, marks, vec![vec![ring]])
}

pub fn convex(rng: &mut Rng) -> Draft {
    simple(rng, shapes::convex)
}

pub fn concave(rng: &mut Rng) -> Draft {
    simple(rng, shapes::concave)
}

pub fn crossed(rng: &mut Rng) -> Draft {
    simple(rng, shapes::crossed)
}

pub fn slivers(rng: &mut Rng) -> Draft {
    let mut draft = simple(rng, shapes::sliver);
    draft.precision = draft.precision.max(8);
    draft
}

pub fn degenerate(rng: &mut Rng) -> Draft {
    let spot = ordinary_spot(rng);
    let marks = few_marks(rng);
    let draft = head(rng, spot.size, marks);
    let mut pieces = vec![vec![shapes::degenerate(rng, spot)]];
    if rng.one_in(2) {
        let beside = Spot { x: spot.x + 2 * spot.size, ..spot };
        pieces.insert(rng.index(2), vec![shapes::square(beside)]);
    }
    if rng.one_in(4) {
        pieces[0].push(shapes::degenerate(rng, spot));
    }
    one_zone(rng, draft, marks, pieces)
}

pub fn holes(rng: &mut Rng) -> Draft {
    let spot = ordinary_spot(rng);
    let marks = few_marks(rng);
    let mut draft = head(rng, spot.size, marks);
    if rng.one_in(4) {
        add_pillars(rng, &mut draft, spot);
    }
    let piece = shapes::holed(rng, spot);
    one_zone(rng, draft, marks, vec![piece])
}

/// Zones of many pieces, some of equal area, with quotas 0 and 1 among them.
pub fn pieces(rng: &mut Rng) -> Draft {
    let floor = ordinary_spot(rng);
    let zone_count = rng.between(1, 4) as usize;
    let marks = rng.between(0, 12);
    let mut draft = head(rng, floor.size / 4 + 2, 2);
    if rng.one_in(3) {
        add_pillars(rng, &mut draft, floor);
    }
    for key in keys(rng, zone_count) {
        let equal = rng.one_in(2);
        let number = if rng.one_in(6) { 16 } else { rng.between(0, 5) };
        let pieces = (0..number)
            .map(|_| {
                let spot = Spot {
                    x: floor.x + rng.between(-floor.size, floor.size),
                    y: floor.y + rng.between(-floor.size, floor.size),
                    size: if equal { floor.size / 4 + 2 } else { rng.scale(8, floor.size) },
                };
                match rng.index(8) {
                    0 => shapes::holed(rng, spot),
                    1 => vec![shapes::degenerate(rng, spot)],
                    2 => vec![shapes::convex(rng, spot)],
                    3 => vec![shapes::concave(rng, spot)],
                    _ => vec![shapes::square(spot)],
                }
            })
            .collect();
        let count = (marks + rng.between(0, 3)) as u16;
        draft.zones.push(DraftZone { key, count, pieces });
    }
    draft
}

/// Pieces whose areas are small multiples of one, so that remainders tie.
pub fn shares(rng: &mut Rng) -> Draft {
    let unit = rng.between(200, 2_000);
    let marks = rng.between(1, 40);
    let mut draft = head(rng, unit, 2);
    draft.precision = (unit / 4) as u32;
    let pieces = (0..rng.between(2, 9))
        .map(|k| {
            let spot = Spot { x: 3 * unit * k, y: 0, size: unit };
            vec![shapes::rectangle(spot, unit, unit * rng.between(1, 12))]
        })
        .collect();
    one_zone(rng, draft, marks, pieces)
}

/// Pillars in, over and beside the floor, and ones that are dropped.
pub fn add_pillars(rng: &mut Rng, draft: &mut Draft, floor: Spot) {
    let number = if rng.one_in(12) { rng.between(5, 20) } else { rng.between(1, 4) };
    for _ in 0..number {
        let reach = floor.size * 3 / 4;
        let (width, height) = match rng.index(10) {
            0 => (0, floor.size),
            1 => (floor.size, -4),
            2 => (2 * floor.size, floor.size / 3 + 1),
            3 => (2 * floor.size, 2 * floor.size),
            _ => (rng.scale(1, floor.size / 2 + 2), rng.scale(1, floor.size / 2 + 2)),
        };
        let centred = rng.one_in(3);
        let (x, y) = if centred {
            (floor.x, floor.y)
        } else {
            (floor.x + rng.between(-reach, reach), floor.y + rng.between(-reach, reach))
        };
        draft.obstacles.push([x as i32, y as i32, width as i32, height as i32]);
    }
}

pub fn pillars(rng: &mut Rng) -> Draft {
    let spot = ordinary_spot(rng);
    let marks = few_marks(rng);
    let mut draft = head(rng, spot.size, marks);
    add_pillars(rng, &mut draft, spot);
    let piece = match rng.index(4) {
        0 => shapes::holed(rng, spot),
        1 => vec![shapes::concave(rng, spot)],
        2 => vec![shapes::convex(rng, spot)],
        _ => vec![shapes::square(spot)],
    };
    one_zone(rng, draft, marks, vec![piece])
}

/// Floors on which distances and bounds tie: even sizes, square pillars.
pub fn symmetric(rng: &mut Rng) -> Draft {
    let size = 1024 * rng.between(1, 24);
    let spot = Spot { x: 512 * rng.between(-8, 8), y: 512 * rng.between(-8, 8), size };
    let marks = few_marks(rng);
    let mut draft = head(rng, size, marks);
    draft.gap = rng.pick(&[0, 0, 256, 1024]);
    if let Some(radius) = &mut draft.radius {
        *radius = (*radius / 128).max(1) * 128;
    }
    if rng.one_in(2) {
        let side = (size / rng.pick(&[2, 4, 8])) as i32;
        let (x, y) = (spot.x as i32, spot.y as i32);
        draft.obstacles.push([x, y, side, side]);
        if rng.one_in(3) {
            draft.obstacles.push([x + side, y, side, side]);
            draft.obstacles.push([x - side, y, side, side]);
        }
    }
    let outer = match rng.index(4) {
        0 => shapes::diamond(spot),
        1 => shapes::rectangle(spot, size, size * rng.between(1, 4)),
        2 => shapes::rectangle(spot, size * rng.between(1, 4), size),
        _ => shapes::square(spot),
    };
    let mut piece = vec![outer];
    if rng.one_in(3) {
        piece.push(shapes::square(Spot { size: size / 2, ..spot }));
    }
    one_zone(rng, draft, marks, vec![piece])
}

/// One mark to a piece, so that anchors and escapes decide.
pub fn lone(rng: &mut Rng) -> Draft {
    let mut draft = match rng.index(3) {
        0 => symmetric(rng),
        1 => holes(rng),
        _ => pillars(rng),
    };
    for zone in &mut draft.zones {
        zone.count = zone.pieces.len() as u16;
    }
    draft
}
