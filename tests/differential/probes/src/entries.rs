//! The entries of `libmarks.a`, as `include/marks.h` declares them.

// Declared where the wrapper for Rust has it.
#[path = "../../../../bindings/rust/src/entry.rs"]
mod entry;

pub use entry::marks_plan;

unsafe extern "C" {
    pub safe fn marks_root(x: f64) -> f64;
    pub fn marks_hash(bytes: *const u8, length: usize) -> u64;
    pub safe fn marks_radical_inverse(index: u64, base: u64, number: &mut u8) -> f64;
    pub fn marks_quotas(
        count: u64,
        weights: *const f64,
        weights_length: usize,
        quotas: *mut u64,
        places: usize,
    ) -> u8;
}
