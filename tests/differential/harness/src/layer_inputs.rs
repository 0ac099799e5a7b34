//! Inputs of the inner layers, taken from the mixed run's jobs.

use oracle::geometry::shapes::Rectangle;
use oracle::job::{self, Job};
use oracle::judge;
use oracle::plotting::glyphs::discs::layers;
use oracle::plotting::regions::RegionPiece;

use crate::generator;
use crate::rng::Rng;

/// A job that can be read, with its name and bytes.
pub struct Floor {
    pub name: String,
    pub bytes: Vec<u8>,
    pub job: Job,
}

pub fn floor(number: u64) -> Option<Floor> {
    let (kind, seed, bytes) = generator::mixed(number);
    job::check_length(&bytes).ok()?;
    let job = job::read(&bytes).ok()?;
    Some(Floor { name: generator::name(kind, seed), bytes, job })
}

/// A piece as the source has it, and as a port is lent it.
pub struct PieceInput {
    pub piece: RegionPiece,
    pub ring_sizes: Vec<u64>,
    pub points: Vec<[f64; 2]>,
    /// The marks that its zone's count gives it.
    pub quota: usize,
}

const MOST_PIECES: usize = 4;

/// Some pieces of the floor, each with its quota.
pub fn pieces(floor: &Floor) -> Vec<PieceInput> {
    let mut inputs = Vec::new();
    for zone in &floor.job.zones {
        let pieces: Vec<RegionPiece> = zone.pieces.iter().map(judge::piece_of).collect();
        let areas: Vec<f64> = pieces.iter().map(RegionPiece::area).collect();
        let quotas = layers::apportion(zone.count.into(), &areas);
        for ((rings, piece), quota) in zone.pieces.iter().zip(pieces).zip(quotas) {
            inputs.push(PieceInput {
                piece,
                ring_sizes: rings.iter().map(|ring| ring.len() as u64).collect(),
                points: rings.iter().flatten().map(|vertex| vertex.map(judge::units)).collect(),
                quota,
            });
        }
    }
    inputs.truncate(MOST_PIECES);
    inputs
}

impl PieceInput {
    pub fn outer(&self) -> &[[f64; 2]] {
        &self.points[..self.ring_sizes[0] as usize]
    }

    /// Places in, on, beside and far from the piece.
    pub fn places(&self, rng: &mut Rng) -> Vec<[f64; 2]> {
        let xs = || self.points.iter().map(|[x, _]| *x);
        let ys = || self.points.iter().map(|[_, y]| *y);
        let low = |numbers: &mut dyn Iterator<Item = f64>| numbers.fold(1.0e4, f64::min);
        let high = |numbers: &mut dyn Iterator<Item = f64>| numbers.fold(-1.0e4, f64::max);
        let (left, right) = (low(&mut xs()), high(&mut xs()));
        let (bottom, top) = (low(&mut ys()), high(&mut ys()));
        let mut places: Vec<[f64; 2]> = (0..8)
            .map(|_| {
                let (u, v) = (1.2 * rng.unit() - 0.1, 1.2 * rng.unit() - 0.1);
                [left + (right - left) * u, bottom + (top - bottom) * v]
            })
            .collect();
        for _ in 0..4 {
            if let Some([a, b]) = self.some_edge(rng) {
                let t = rng.pick(&[0.0, 0.5, 1.0, 0.3]);
                places.push([a[0] + t * (b[0] - a[0]), a[1] + t * (b[1] - a[1])]);
                places.push([places[0][0], a[1]]);
            }
        }
        places.push([36_000.0 * rng.unit(), -36_000.0 * rng.unit()]);
        places
    }

    fn some_edge(&self, rng: &mut Rng) -> Option<[[f64; 2]; 2]> {
        if self.points.len() < 2 {
            return None;
        }
        let k = rng.index(self.points.len() - 1);
        Some([self.points[k], self.points[k + 1]])
    }

    /// A radius at which about the quota fits: stated, or by the area.
    pub fn radius(&self, floor: &Floor, rng: &mut Rng) -> f64 {
        match floor.job.head.radius {
            Some(stated) if stated > 0 => f64::from(stated) / 1024.0,
            _ => {
                let marks = self.quota.max(1) as f64;
                let whole = (self.piece.area() / (marks * std::f64::consts::PI)).sqrt();
                whole.max(0.125) * rng.pick(&[0.3, 0.5, 0.7, 0.85, 1.0])
            }
        }
    }
}

/// Gap and boundary gap as the reference reads them.
pub fn gaps(job: &Job) -> (f64, f64) {
    let gap = f64::from(job.head.gap) / 1024.0;
    let own = job.head.boundary_gap.map(|own| f64::from(own) / 1024.0);
    (gap, own.unwrap_or(gap))
}

/// The obstacles that are not dropped.
pub fn obstacles(job: &Job) -> Vec<Rectangle> {
    let mut obstacles = judge::obstacles_of(job);
    obstacles.retain(|rect| rect.width() > 0.0 && rect.height() > 0.0);
    obstacles
}
