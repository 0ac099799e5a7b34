//! The private functions of the source, opened to the harness one by one.

use super::*;
use crate::plotting::glyphs::discs::GlyphOptions;
use crate::plotting::regions;
use crate::stand_ins;

pub fn apportion(n: usize, weights: &[f64]) -> Vec<usize> {
    super::apportion(n, weights)
}

pub fn fnv1a(bytes: &[u8]) -> u64 {
    super::fnv1a(bytes)
}

pub fn radical_inverse(index: usize, base: usize) -> f64 {
    super::radical_inverse(index, base)
}

pub fn point_in_polygon(x: f64, y: f64, ring: &crate::geometry::shapes::Polygon) -> bool {
    regions::point_in_polygon(&Point::new(x, y), ring)
}

pub fn signed_clearance(x: f64, y: f64, piece: &RegionPiece) -> f64 {
    super::signed_clearance(x, y, piece)
}

/// (min x, max x, min y, max y).
pub fn ring_bounds(ring: &[Point]) -> Option<(f64, f64, f64, f64)> {
    super::ring_bounds(ring)
}

pub fn obstacles_near(
    piece: &RegionPiece,
    obstacles: &[Rectangle],
    clearance: f64,
) -> Vec<Rectangle> {
    super::obstacles_near(piece, obstacles, clearance)
}

/// The deepest point with its clearance, and the most cells that waited.
pub fn deepest_point(piece: &RegionPiece, precision: f64) -> (Option<(Point, f64)>, usize) {
    let found = poi_with_holes(std::slice::from_ref(piece), precision);
    (found, stand_ins::most_waiting())
}

/// What a packer is told beside its piece.
pub struct Packing<'a> {
    pub arrangement: GlyphArrangement,
    pub quota: usize,
    pub precision: f64,
    pub attempts: u32,
    pub radius: f64,
    pub gap: f64,
    pub boundary_gap: f64,
    pub obstacles: &'a [Rectangle],
    pub spread: bool,
    pub strict: bool,
    pub state: u64,
}

/// One packer on one piece: its spots, and the state of the stream after it.
pub fn pack_piece(piece: &RegionPiece, packing: &Packing) -> (Vec<Point>, u64) {
    let ctx = PackCtx {
        r: packing.radius,
        gap: packing.gap,
        boundary_gap: packing.boundary_gap,
        obstacles: packing.obstacles,
        mode: PackMode { spread: packing.spread, strict_obstacles: packing.strict },
    };
    let (n, precision) = (packing.quota, packing.precision);
    let mut rng = StdRng::seed_from_u64(packing.state);
    let spots = match packing.arrangement {
        GlyphArrangement::Uniform => pack_uniform_piece(piece, n, precision, ctx, false),
        GlyphArrangement::Rectangular => pack_uniform_piece(piece, n, precision, ctx, true),
        GlyphArrangement::LowDiscrepancy => pack_low_discrepancy_piece(piece, n, precision, ctx),
        GlyphArrangement::Random => pack_random_piece(piece, n, packing.attempts, ctx, &mut rng),
    };
    (spots, rng.state())
}

pub fn relax_scatter(
    points: &mut [Point],
    piece: &RegionPiece,
    obstacles: &[Rectangle],
    spacing: f64,
    inset: f64,
) {
    super::relax_scatter(points, piece, obstacles, spacing, inset);
}

/// The ceiling as `place_glyphs` asks for it, over the zones left in.
pub fn ceiling(zones: &[(String, Vec<RegionPiece>, usize)], options: &GlyphOptions) -> Option<f64> {
    let work: Vec<(String, &Vec<RegionPiece>, usize)> =
        zones.iter().map(|(key, pieces, n)| (key.clone(), pieces, *n)).collect();
    let gap = options.boundary_gap.unwrap_or(options.gap);
    analytic_r_hi(&work, gap, options.precision)
}
