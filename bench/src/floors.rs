//! Floors to measure, as job bytes.
use std::f64::consts::TAU;
use std::ops::Range;

type Ring = Vec<[f64; 2]>;

pub struct Zone {
    pub key: String,
    pub count: u16,
    pub pieces: Vec<Vec<Ring>>,
}

fn number(unit: f64) -> [u8; 4] {
    ((unit * 1024.0).round() as i32).to_be_bytes()
}

/// Where a job has its gap, its boundary gap and its precision, in 1/1024, and its attempts.
pub const GAP: Range<usize> = 12..16;
pub const BOUNDARY_GAP: Range<usize> = 17..21;
pub const PRECISION: Range<usize> = 21..25;
pub const ATTEMPTS: Range<usize> = 25..29;

/// A job with an automatic radius, BestEffort, gap 1/8, boundary gap 1/4 and precision 1/4.
pub fn job(pillars: &[[f64; 4]], zones: &[Zone]) -> Vec<u8> {
    let mut b = vec![0, 0, 0, 0, 1, 0, 0, 0, 0, 0, 0, 0];
    b.extend(128u32.to_be_bytes());
    b.push(1);
    for item in [256u32, 256, 200] {
        b.extend(item.to_be_bytes());
    }
    b.extend(1u64.to_be_bytes());
    b.extend((pillars.len() as u16).to_be_bytes());
    b.extend(pillars.iter().flatten().flat_map(|n| number(*n)));
    b.extend((zones.len() as u16).to_be_bytes());
    for zone in zones {
        b.push(zone.key.len() as u8);
        b.extend(zone.key.as_bytes());
        b.extend(zone.count.to_be_bytes());
        b.push(zone.pieces.len() as u8);
        for piece in &zone.pieces {
            b.push(piece.len() as u8);
            for ring in piece {
                b.extend((ring.len() as u16).to_be_bytes());
                b.extend(ring.iter().flatten().flat_map(|n| number(*n)));
            }
        }
    }
    let rest = b.len() as u32 - 4;
    b[..4].copy_from_slice(&rest.to_be_bytes());
    b
}

pub fn rectangle(x: f64, y: f64, width: f64, height: f64) -> Ring {
    vec![[x, y], [x + width, y], [x + width, y + height], [x, y + height]]
}

pub fn round(n: usize, radius: f64, wave: f64) -> Ring {
    (0..n)
        .map(|k| {
            let a = TAU * k as f64 / n as f64;
            let r = radius * (1.0 + wave * (7.0 * a).sin());
            [r * a.cos(), r * a.sin()]
        })
        .collect()
}

/// One zone of one piece.
pub fn one(key: &str, count: u16, rings: Vec<Ring>) -> Vec<Zone> {
    vec![Zone { key: key.into(), count, pieces: vec![rings] }]
}

/// Pillars of side 1 in a grid over a rectangle from (0, 0).
pub fn pillars(columns: usize, rows: usize, width: f64, height: f64) -> Vec<[f64; 4]> {
    (0..columns * rows)
        .map(|k| {
            let (i, j) = ((k % columns) as f64 + 0.5, (k / columns) as f64 + 0.5);
            [width * i / columns as f64, height * j / rows as f64, 1.0, 1.0]
        })
        .collect()
}

/// A comb of so many teeth: four vertices each.
pub fn comb(teeth: usize) -> Ring {
    let mut ring: Ring = (0..teeth)
        .flat_map(|k| {
            let x = 4.0 * k as f64;
            [[x, 6.0], [x, 30.0], [x + 2.5, 30.0], [x + 2.5, 6.0]]
        })
        .collect();
    ring.extend([[4.0 * teeth as f64, 6.0], [4.0 * teeth as f64, 0.0], [0.0, 0.0]]);
    ring
}

/// A line of so many vertices, walked up and down again and again.
pub fn upright(n: usize, height: f64) -> Ring {
    (0..n).map(|k| [0.0, height * (k % 2) as f64]).collect()
}

/// A rectangle from (0, 0) of so many vertices, an even number: its left side is such a line.
pub fn retraced(n: usize, width: f64, height: f64) -> Ring {
    let mut ring = upright(n - 2, height);
    ring.extend([[width, height], [width, 0.0]]);
    ring
}

/// Each floor with its name.
pub fn all() -> Vec<(&'static str, Vec<u8>)> {
    let rooms: Vec<Zone> = (0..64)
        .map(|k| Zone {
            key: format!("R{k:02}"),
            count: 20,
            pieces: vec![vec![rectangle(12.0 * (k % 8) as f64, 9.0 * (k / 8) as f64, 11.0, 8.0)]],
        })
        .collect();
    vec![
        ("hall, 2,000 marks", job(&[], &one("hall", 2_000, vec![rectangle(0.0, 0.0, 100.0, 60.0)]))),
        (
            "round, 256 edges and a hole, 600 marks",
            job(
                &[[20.0, 0.0, 2.0, 2.0], [-20.0, 0.0, 2.0, 2.0], [0.0, 20.0, 2.0, 2.0]],
                &one("round", 600, vec![round(256, 40.0, 0.1), round(64, 10.0, 0.0)]),
            ),
        ),
        ("64 rooms of 20 marks", job(&pillars(4, 4, 96.0, 72.0), &rooms)),
        (
            "64 pillars, 500 marks",
            job(&pillars(8, 8, 80.0, 60.0), &one("floor", 500, vec![rectangle(0.0, 0.0, 80.0, 60.0)])),
        ),
        ("comb, 251 edges, 300 marks", coarse(job(&[], &one("comb", 300, vec![comb(62)])))),
    ]
}

/// The job at precision 1: so many equal teeth have more cells waiting than may wait, at a finer one.
fn coarse(mut job: Vec<u8>) -> Vec<u8> {
    job[PRECISION].copy_from_slice(&1024u32.to_be_bytes());
    job
}
