//! The packers and the relaxation, told what the source's are told.

use oracle::geometry::shapes::Rectangle;
use oracle::plotting::glyphs::GlyphArrangement;
use oracle::plotting::glyphs::discs::layers::Packing;

use crate::c::*;
use crate::{Piece, WORK_FLOATS, lent_obstacles};

/// How many spots there are, the buffer that begins with them, and the state
/// of the stream after them.
pub struct Packed {
    pub placed: u64,
    pub buffer: Vec<f64>,
    pub state: u64,
}

/// A packing as the port is told it.
fn told(packing: &Packing) -> ProbePacking {
    assert!(packing.obstacles.len() <= 64 && (1..=2_000).contains(&packing.quota));
    ProbePacking {
        radius: packing.radius,
        gap: packing.gap,
        boundary_gap: packing.boundary_gap,
        precision: packing.precision,
        quota: packing.quota,
        attempts: packing.attempts,
        spread: packing.spread.into(),
        strict: packing.strict.into(),
    }
}

/// Calls a packer with all that is lent, the flags before the spots.
macro_rules! packed {
    ($piece:expr, $packing:expr, $packer:ident $(, $flags:expr)*) => {{
        let (obstacles, told) = (lent_obstacles($packing.obstacles), told($packing));
        let (mut first, mut second) = (vec![0.0; WORK_FLOATS], vec![0.0; WORK_FLOATS]);
        let mut buffer = vec![0.0; 2 * $packing.quota];
        let mut state = $packing.state;
        let placed = call!(
            $piece,
            $packer,
            obstacles.as_ptr(),
            obstacles.len(),
            &told,
            &mut state,
            first.as_mut_ptr(),
            first.len(),
            second.as_mut_ptr(),
            second.len(),
            $($flags,)*
            buffer.as_mut_ptr(),
            buffer.len(),
        );
        Packed { placed: placed as u64, buffer, state }
    }};
}

impl Piece<'_> {
    /// Lends no flags.
    pub fn pack(self, packing: &Packing) -> Packed {
        let packer = match packing.arrangement {
            GlyphArrangement::Uniform => probe_pack_uniform_no_flags,
            GlyphArrangement::Rectangular => probe_pack_rectangular_no_flags,
            GlyphArrangement::LowDiscrepancy => probe_pack_low_discrepancy_no_flags,
            GlyphArrangement::Random => probe_pack_random_no_flags,
            other => panic!("{other:?} has no packer"),
        };
        packed!(self, packing, packer)
    }

    /// Lends a flag for each mark.
    pub fn pack_with_flags(self, packing: &Packing) -> Packed {
        let packer = match packing.arrangement {
            GlyphArrangement::Uniform => probe_pack_uniform,
            GlyphArrangement::Rectangular => probe_pack_rectangular,
            GlyphArrangement::LowDiscrepancy => probe_pack_low_discrepancy,
            GlyphArrangement::Random => probe_pack_random,
            other => panic!("{other:?} has no packer"),
        };
        let mut flags = vec![false; packing.quota];
        packed!(self, packing, packer, flags.as_mut_ptr(), flags.len())
    }

    /// Moves the spots, x and y in turn; the obstacles are those near.
    pub fn relax_scatter(self, near: &[Rectangle], spacing: f64, inset: f64, spots: &mut [f64]) {
        assert!(spots.len() <= 4_000 && spots.len().is_multiple_of(2));
        let obstacles = lent_obstacles(near);
        call!(
            self,
            probe_relax_scatter,
            obstacles.as_ptr(),
            obstacles.len(),
            spacing,
            inset,
            spots.as_mut_ptr(),
            spots.len(),
        );
    }
}
