//! Jobs with faults: numbers at and beside their limits, and cut, spliced
//! and flipped copies of good jobs.

use super::draft::{Draft, DraftZone, Field, mend_length};
use super::kinds;
use crate::rng::Rng;

fn good(rng: &mut Rng) -> Draft {
    match rng.index(5) {
        0 => kinds::pieces(rng),
        1 => kinds::pillars(rng),
        2 => kinds::holes(rng),
        3 => kinds::symmetric(rng),
        _ => kinds::convex(rng),
    }
}

/// Values at and beside the ends of an item's range.
fn limits_of(field: Field) -> &'static [i64] {
    match field {
        Field::Version => &[0, 1, 2, 255],
        Field::Arrangement => &[0, 3, 4, 255],
        Field::Policy | Field::RadiusKind | Field::BoundaryKind => &[0, 1, 2, 255],
        Field::Radius => &[0, 1, 1_048_576, 1_048_577, -1],
        Field::Gap | Field::BoundaryGap => &[0, 1, 16_384, 16_385, -1],
        Field::Precision => &[0, 1, 1_048_576, 1_048_577, -1],
        Field::Attempts => &[0, 1, 2_000, 2_001, -1],
        Field::Seed => &[0, -1],
        Field::ObstacleCount | Field::ZoneCount => &[0, 1, 64, 65, -1],
        Field::ObstacleNumber | Field::Coordinate => {
            &[-1_048_577, -1_048_576, 0, 1_048_576, 1_048_577, i32::MIN as i64, i32::MAX as i64]
        }
        Field::KeyLength => &[0, 1, 32, 33, 255],
        Field::KeyByte => &[0, 47, 48, 57, 58, 64, 65, 90, 91, 96, 97, 122, 123, 255],
        Field::MarkCount => &[0, 1, 2_000, 2_001, 65_535],
        Field::PieceCount => &[0, 1, 16, 17, 255],
        Field::RingCount => &[0, 1, 9, 10, 255],
        Field::VertexCount => &[0, 1, 2, 256, 257, 65_535],
    }
}

/// Every kind of item, so that rare ones come as often as coordinates.
const FIELDS: [Field; 21] = [
    Field::Version,
    Field::Arrangement,
    Field::Policy,
    Field::RadiusKind,
    Field::Radius,
    Field::Gap,
    Field::BoundaryKind,
    Field::BoundaryGap,
    Field::Precision,
    Field::Attempts,
    Field::Seed,
    Field::ObstacleCount,
    Field::ObstacleNumber,
    Field::ZoneCount,
    Field::KeyLength,
    Field::KeyByte,
    Field::MarkCount,
    Field::PieceCount,
    Field::RingCount,
    Field::VertexCount,
    Field::Coordinate,
];

/// One item of a good job overwritten with a value at or beside a limit.
pub fn limits(rng: &mut Rng) -> Vec<u8> {
    if rng.one_in(3) {
        return sizes(rng);
    }
    let mut written = good(rng).write();
    let field = rng.pick(&FIELDS);
    let places: Vec<_> = written.places.iter().filter(|place| place.field == field).collect();
    if places.is_empty() {
        return written.bytes;
    }
    let place = *rng.pick(&places);
    written.overwrite(place, rng.pick(limits_of(field)));
    written.bytes
}

/// Lists as long as they may be, and one longer.
fn sizes(rng: &mut Rng) -> Vec<u8> {
    let over = rng.index(2);
    let mut draft = good(rng);
    let piece = vec![vec![[0, 0], [9_000, 0], [9_000, 8_000], [0, 8_000]]];
    let zone = |key: &[u8], count, pieces| DraftZone { key: key.to_vec(), count, pieces };
    match rng.index(11) {
        0 => draft.obstacles = vec![[0, 0, 300, 300]; 64 + over],
        1 => {
            draft.zones =
                kinds::keys(rng, 64 + over).iter().map(|key| zone(key, 0, vec![])).collect();
        }
        2 => draft.zones = vec![zone(&[b'k'; 33][..32 + over], 1, vec![piece])],
        3 => draft.zones = vec![zone(b"a", 3, vec![piece; 16 + over])],
        4 => draft.zones = vec![zone(b"a", 3, vec![vec![piece[0].clone(); 9 + over]])],
        5 => {
            let mut ring = vec![[0, 0], [9_000, 0], [9_000, 8_000]];
            ring.resize(256 + over, [0, 8_000]);
            draft.zones = vec![zone(b"a", 3, vec![vec![ring]])];
        }
        6 => {
            let last = 1_990 + over as u16;
            draft.zones = vec![zone(b"a", 10, vec![]), zone(b"b", last, vec![])];
        }
        7 => draft.zones = vec![zone(b"a", 2_000 + over as u16, vec![])],
        8 => {
            let (first, second) =
                rng.pick(&[("a", "a"), ("a", "ab"), ("ab", "a"), ("b", "a"), ("Z", "a")]);
            draft.zones = vec![
                zone(first.as_bytes(), over as u16, vec![piece.clone()]),
                zone(second.as_bytes(), 1, vec![piece]),
            ];
        }
        9 => return of_length(rng, draft, 65_536 + over),
        _ => {
            let mut bytes = draft.bytes();
            let length = rng.pick(&[0, 3, 4, 5, 6, 7]);
            bytes.truncate(length);
            if length > 4 {
                mend_length(&mut bytes);
            }
            return bytes;
        }
    }
    draft.bytes()
}

/// A job of exactly so many bytes, filled with zones that are left out.
fn of_length(rng: &mut Rng, mut draft: Draft, length: usize) -> Vec<u8> {
    let filler = |key: Vec<u8>, rings: &[usize]| DraftZone {
        key,
        count: 0,
        pieces: rings.iter().map(|vertices| vec![vec![[7, -7]; *vertices]]).collect(),
    };
    draft.zones.truncate(1);
    let mut next = 0;
    while draft.bytes().len() + 3_000 < length {
        let key = format!("zzz{next:02}").into_bytes();
        draft.zones.push(filler(key, &[rng.between(240, 256) as usize]));
        next += 1;
    }
    let left = length - draft.bytes().len();
    let key_length = 4 + (left - 14) % 8;
    let vertices = (left - 10 - key_length) / 8;
    let first = vertices.min(256);
    draft.zones.push(filler(vec![b'z'; key_length], &[first, vertices - first]));
    draft.bytes()
}

/// A good job under a length field that does not name the rest.
pub fn length(rng: &mut Rng) -> Vec<u8> {
    let mut bytes = good(rng).bytes();
    let rest = bytes.len() as u32 - 4;
    let wrong = rng.pick(&[0, 1, rest - 1, rest + 1, rest + 4, rest << 8, u32::MAX]);
    bytes[..4].copy_from_slice(&wrong.to_be_bytes());
    bytes
}

pub fn cut(rng: &mut Rng) -> Vec<u8> {
    let mut bytes = good(rng).bytes();
    let head = rng.one_in(2) && bytes.len() > 60;
    let length = rng.index(if head { 60 } else { bytes.len() });
    bytes.truncate(length);
    if length > 4 && !rng.one_in(8) {
        mend_length(&mut bytes);
    }
    bytes
}

pub fn spliced(rng: &mut Rng) -> Vec<u8> {
    let mut bytes = good(rng).bytes();
    match rng.index(4) {
        0 => {
            let other = good(rng).bytes();
            let from = rng.index(bytes.len());
            bytes.truncate(from.max(4));
            bytes.extend(&other[from.clamp(4, other.len())..]);
        }
        1 => {
            let at = 4 + rng.index(bytes.len() - 4);
            let number = rng.pick(&[1, 2, 4, 8]);
            bytes.splice(at..at, std::iter::repeat_n(0, number));
        }
        2 => {
            let at = 4 + rng.index(bytes.len() - 4);
            let number = rng.pick(&[1, 2, 4, 8]).min(bytes.len() - at);
            bytes.drain(at..at + number);
        }
        _ => {
            let number = rng.between(1, 9) as usize;
            bytes.extend(std::iter::repeat_n(rng.bits() as u8, number));
        }
    }
    if !rng.one_in(16) {
        mend_length(&mut bytes);
    }
    bytes
}

pub fn flipped(rng: &mut Rng) -> Vec<u8> {
    let mut bytes = good(rng).bytes();
    for _ in 0..rng.between(1, 3) {
        let at = if rng.one_in(2) { rng.index(46) } else { rng.index(bytes.len()) };
        bytes[at] ^= 1 << rng.index(8);
    }
    bytes
}
