//! The functions of `libprobes.a`, as `probes.h` declares them.

/// x and y.
pub type ProbePoint = [f64; 2];

#[repr(C)]
pub struct ProbeRectangle {
    pub center_x: f64,
    pub center_y: f64,
    pub width: f64,
    pub height: f64,
}

/// What a packer is told: a truth value of C is one of the bytes 0 and 1.
#[repr(C)]
pub struct ProbePacking {
    pub radius: f64,
    pub gap: f64,
    pub boundary_gap: f64,
    pub precision: f64,
    pub quota: usize,
    pub attempts: u32,
    pub spread: u8,
    pub strict: u8,
}

/// Functions that are lent a piece before all else.
macro_rules! of_piece {
    ($(fn $name:ident($($argument:ident: $type:ty),* $(,)?) $(-> $answer:ty)?;)*) => {
        unsafe extern "C" {
            $(pub fn $name(
                ring_sizes: *const u64,
                rings: usize,
                points: *const ProbePoint,
                point_count: usize,
                $($argument: $type),*
            ) $(-> $answer)?;)*
        }
    };
}

of_piece! {
    fn probe_signed_clearance(x: f64, y: f64) -> f64;
    fn probe_four_clearances(places: &[ProbePoint; 4], found: &mut [f64; 4]);
    fn probe_clearance_at_least(x: f64, y: f64, c: f64) -> bool;
    fn probe_count_clear(places: *const ProbePoint, place_count: usize, c: f64) -> u64;
    fn probe_area() -> f64;
    fn probe_obstacles_near(
        obstacles: *const ProbeRectangle, obstacle_count: usize,
        clearance: f64,
        near: *mut u8, near_length: usize,
    ) -> u64;
    fn probe_deepest_point(
        precision: f64,
        first: *mut f64, first_length: usize,
        second: *mut f64, second_length: usize,
        found: &mut [f64; 3],
        waiting: &mut u32,
    ) -> u8;
    fn probe_depth(precision: f64, cells: *mut f64, cell_floats: usize) -> f64;
    fn probe_relax_scatter(
        obstacles: *const ProbeRectangle, obstacle_count: usize,
        spacing: f64, inset: f64,
        spots: *mut f64, spot_floats: usize,
    );
}

unsafe extern "C" {
    pub fn probe_point_in_polygon(
        ring: *const ProbePoint,
        point_count: usize,
        x: f64,
        y: f64,
    ) -> bool;
    pub fn probe_ring_bounds(
        ring: *const ProbePoint,
        point_count: usize,
        bounds: &mut [f64; 4],
    ) -> bool;
}

macro_rules! packers {
    ($($name:ident $(, $flags:ident: $type:ty)*;)*) => {
        of_piece! {
            $(fn $name(
                obstacles: *const ProbeRectangle, obstacle_count: usize,
                packing: &ProbePacking,
                state: &mut u64,
                first: *mut f64, first_length: usize,
                second: *mut f64, second_length: usize,
                $($flags: $type,)*
                spots: *mut f64, spot_floats: usize,
            ) -> usize;)*
        }
    };
}
packers! {
    probe_pack_uniform, flags: *mut bool, flag_count: usize;
    probe_pack_rectangular, flags: *mut bool, flag_count: usize;
    probe_pack_low_discrepancy, flags: *mut bool, flag_count: usize;
    probe_pack_random, flags: *mut bool, flag_count: usize;
    probe_pack_uniform_no_flags;
    probe_pack_rectangular_no_flags;
    probe_pack_low_discrepancy_no_flags;
    probe_pack_random_no_flags;
}
