//! From job bytes and lent lengths to the answer that the port must give.

use std::collections::HashMap;
use std::panic::{AssertUnwindSafe, catch_unwind, resume_unwind};

use crate::geometry::primitives::Point;
use crate::geometry::shapes::{Polygon, Rectangle};
use crate::job::{self, Job, Piece};
use crate::plotting::glyphs::discs::layers;
use crate::plotting::glyphs::{GlyphArrangement, GlyphOptions, ObstaclePolicy, place_glyphs};
use crate::plotting::regions::{RegionPiece, RegionPolygons};
use crate::sheet::{self, ZoneSpots};
use crate::spec::Combination;
use crate::stand_ins::{self, TooManyWait};

/// Lengths of the lent slices: floats of work, bytes of the sheet buffer.
#[derive(Clone, Copy, Debug)]
pub struct Lent {
    pub first: usize,
    pub second: usize,
    pub sheet: usize,
}

impl Lent {
    /// What the job program lends: enough for every sheet.
    pub const PROGRAM: Lent =
        Lent { first: 8_000, second: 8_000, sheet: 15 + 64 * 37 + 2_000 * 16 };
}

#[derive(Clone, Debug, PartialEq)]
pub enum Outcome {
    Refused(u8),
    Sheet(Vec<u8>),
}

#[derive(Clone, Debug, PartialEq)]
pub struct Answer {
    pub outcome: Outcome,
    /// Trials of the search free of obstacles, and of that with them.
    pub trials: [u32; 2],
}

pub fn answer(bytes: &[u8], lent: Lent) -> Answer {
    match sheet_of(bytes, lent) {
        Ok((sheet, trials)) => Answer { outcome: Outcome::Sheet(sheet), trials },
        Err(refusal) => Answer { outcome: Outcome::Refused(refusal), trials: [0, 0] },
    }
}

fn sheet_of(bytes: &[u8], lent: Lent) -> Result<(Vec<u8>, [u32; 2]), u8> {
    job::check_length(bytes)?;
    job::check_work(lent.first, lent.second)?;
    let job = job::read(bytes)?;
    let zones = job.zones.iter().filter(|zone| zone.left_in());
    if lent.sheet < sheet::buffer_for(zones.map(|zone| (zone.key.len(), zone.count))) {
        return Err(14);
    }
    unless_too_many_wait(|| {
        if ceiling(&job).is_some_and(|ceiling| ceiling < 1.0 / 1024.0) {
            return Err(16);
        }
        Ok(place(&job))
    })
    .unwrap_or(Err(15))
}

/// `None` where a search inside has too many cells waiting.
pub fn unless_too_many_wait<T>(work: impl FnOnce() -> T) -> Option<T> {
    stand_ins::forget_counts();
    match catch_unwind(AssertUnwindSafe(work)) {
        Ok(result) => Some(result),
        Err(cause) if cause.is::<TooManyWait>() => None,
        Err(cause) => resume_unwind(cause),
    }
}

/// The ceiling that the reference works out for an automatic radius.
fn ceiling(job: &Job) -> Option<f64> {
    if job.head.radius.is_some() {
        return None;
    }
    let zones: Vec<(String, Vec<RegionPiece>, usize)> = job
        .zones
        .iter()
        .filter(|zone| zone.left_in())
        .map(|zone| (key_of(&zone.key), pieces_of(&zone.pieces), zone.count.into()))
        .collect();
    layers::ceiling(&zones, &options_of(job))
}

/// The reference on the job: the radius, its zones in job order, the trials.
pub fn place_zones(job: &Job) -> (f64, Vec<ZoneSpots>, [u32; 2]) {
    let mut regions = HashMap::new();
    let mut counts = HashMap::new();
    for zone in &job.zones {
        let key = key_of(&zone.key);
        regions.insert(Combination::new(&[&key]), pieces_of(&zone.pieces));
        counts.insert(key, usize::from(zone.count));
    }
    let regions = RegionPolygons::from_map(regions);
    let mut placements = place_glyphs(&regions, &counts, &options_of(job));
    let mut zones = Vec::new();
    for zone in job.zones.iter().filter(|zone| zone.left_in()) {
        let key = key_of(&zone.key);
        let points = placements.positions.remove(&key).unwrap_or_default();
        let unplaced = placements.unplaced.remove(&key).unwrap_or(0);
        assert_eq!(points.len() + unplaced, usize::from(zone.count));
        zones.push(ZoneSpots {
            key: zone.key.clone(),
            unplaced: unplaced as u16,
            spots: points.iter().map(|p| [p.x(), p.y()]).collect(),
        });
    }
    assert!(placements.positions.is_empty() && placements.unplaced.is_empty());
    (placements.radius, zones, stand_ins::trials())
}

fn place(job: &Job) -> (Vec<u8>, [u32; 2]) {
    let (radius, zones, trials) = place_zones(job);
    (sheet::write(radius, &zones), trials)
}

/// One set name for each key; it must print as the key.
pub fn key_of(key: &[u8]) -> String {
    let name = String::from_utf8(key.to_vec()).expect("a key is of letters and digits");
    assert_eq!(Combination::new(&[&name]).to_string(), name);
    name
}

pub fn units(number: i32) -> f64 {
    f64::from(number) / 1024.0
}

pub fn piece_of(rings: &Piece) -> RegionPiece {
    let polygon = |ring: &Vec<[i32; 2]>| {
        Polygon::new(ring.iter().map(|[x, y]| Point::new(units(*x), units(*y))).collect())
    };
    RegionPiece { outer: polygon(&rings[0]), holes: rings[1..].iter().map(polygon).collect() }
}

fn pieces_of(pieces: &[Piece]) -> Vec<RegionPiece> {
    pieces.iter().map(piece_of).collect()
}

pub fn obstacles_of(job: &Job) -> Vec<Rectangle> {
    job.obstacles
        .iter()
        .map(|[x, y, width, height]| {
            Rectangle::new(Point::new(units(*x), units(*y)), units(*width), units(*height))
        })
        .collect()
}

pub fn options_of(job: &Job) -> GlyphOptions {
    let units = |number: u32| f64::from(number) / 1024.0;
    let head = &job.head;
    GlyphOptions::default()
        .arrangement(match head.arrangement {
            0 => GlyphArrangement::Uniform,
            1 => GlyphArrangement::Rectangular,
            2 => GlyphArrangement::LowDiscrepancy,
            _ => GlyphArrangement::Random,
        })
        .obstacle_policy(match head.policy {
            0 => ObstaclePolicy::BestEffort,
            _ => ObstaclePolicy::Strict,
        })
        .radius(head.radius.map(units))
        .gap(units(head.gap))
        .boundary_gap(head.boundary_gap.map(units))
        .precision(units(head.precision))
        .max_attempts(head.attempts)
        .seed(head.seed)
        .obstacles(obstacles_of(job))
}
