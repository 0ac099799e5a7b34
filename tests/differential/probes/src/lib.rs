//! The port's C functions, each declared once: the entries open to callers as
//! they are, and the inner layers, as `probes.h` says, over slices.

/// Calls a function that is lent a piece.
macro_rules! call {
    ($piece:expr, $function:ident $(, $argument:expr)* $(,)?) => {
        // SAFETY: a pointer comes with its slice's length, or its type tells
        // it; `Piece::new` and the callers see to the lengths that are owed.
        unsafe {
            $function(
                $piece.ring_sizes.as_ptr(),
                $piece.ring_sizes.len(),
                $piece.points.as_ptr(),
                $piece.points.len(),
                $($argument),*
            )
        }
    };
}

mod c;
pub mod entries;
mod packers;

pub use packers::Packed;

use oracle::geometry::primitives::Point;
use oracle::geometry::shapes::Rectangle;

use c::*;

const WORK_FLOATS: usize = 8_000;

/// A piece as the port is lent it.
#[derive(Clone, Copy)]
pub struct Piece<'a> {
    ring_sizes: &'a [u64],
    points: &'a [[f64; 2]],
}

impl<'a> Piece<'a> {
    /// Of its ring sizes, the outer ring first, and its vertices.
    pub fn new(ring_sizes: &'a [u64], points: &'a [[f64; 2]]) -> Self {
        let vertices: u64 = ring_sizes.iter().sum();
        assert!(!ring_sizes.is_empty() && points.len() as u64 == vertices, "not a piece");
        Self { ring_sizes, points }
    }

    #[inline]
    pub fn signed_clearance(self, x: f64, y: f64) -> f64 {
        call!(self, probe_signed_clearance, x, y)
    }

    #[inline]
    pub fn four_clearances(self, places: &[[f64; 2]; 4], found: &mut [f64; 4]) {
        call!(self, probe_four_clearances, places, found);
    }

    #[inline]
    pub fn clearance_at_least(self, x: f64, y: f64, c: f64) -> bool {
        call!(self, probe_clearance_at_least, x, y, c)
    }

    #[inline]
    pub fn count_clear(self, places: &[[f64; 2]], c: f64) -> u64 {
        call!(self, probe_count_clear, places.as_ptr(), places.len(), c)
    }

    pub fn area(self) -> f64 {
        call!(self, probe_area)
    }

    pub fn obstacles_near(self, obstacles: &[Rectangle], clearance: f64, near: &mut [u8]) -> u64 {
        assert_eq!(near.len(), obstacles.len());
        let lent = lent_obstacles(obstacles);
        call!(
            self,
            probe_obstacles_near,
            lent.as_ptr(),
            lent.len(),
            clearance,
            near.as_mut_ptr(),
            near.len(),
        )
    }

    pub fn deepest_point(self, precision: f64, found: &mut [f64; 3], waiting: &mut u32) -> u8 {
        let (mut first, mut second) = (vec![0.0; WORK_FLOATS], vec![0.0; WORK_FLOATS]);
        call!(
            self,
            probe_deepest_point,
            precision,
            first.as_mut_ptr(),
            first.len(),
            second.as_mut_ptr(),
            second.len(),
            found,
            waiting,
        )
    }

    #[inline]
    pub fn depth(self, precision: f64, cells: &mut [f64]) -> f64 {
        assert!(cells.len() <= 500_000);
        call!(self, probe_depth, precision, cells.as_mut_ptr(), cells.len())
    }
}

pub fn point_in_polygon(ring: &[[f64; 2]], x: f64, y: f64) -> bool {
    // SAFETY: the pointer comes with its slice's length.
    unsafe { probe_point_in_polygon(ring.as_ptr(), ring.len(), x, y) }
}

pub fn ring_bounds(ring: &[[f64; 2]], bounds: &mut [f64; 4]) -> bool {
    // SAFETY: the pointer comes with its slice's length.
    unsafe { probe_ring_bounds(ring.as_ptr(), ring.len(), bounds) }
}

fn lent_obstacles(obstacles: &[Rectangle]) -> Vec<ProbeRectangle> {
    obstacles
        .iter()
        .map(|rect| ProbeRectangle {
            center_x: rect.center().x(),
            center_y: rect.center().y(),
            width: rect.width(),
            height: rect.height(),
        })
        .collect()
}

/// Each x and y in turn.
pub fn flat_points(points: &[Point]) -> Vec<f64> {
    points.iter().flat_map(|point| [point.x(), point.y()]).collect()
}
