//! What stands in the place of the source's float functions, heap and random
//! stream (docs/DIFFERENCES.md), and the counters that the judge reads.

use std::cell::Cell;
use std::cmp::Ordering;
use std::collections::BinaryHeap;
use std::ops::RangeInclusive;

pub trait Float {
    fn larger(self, other: f64) -> f64;
    fn smaller(self, other: f64) -> f64;
    fn square(self) -> f64;
    fn root_of_squares(self, other: f64) -> f64;
}

impl Float for f64 {
    fn larger(self, other: f64) -> f64 {
        if self.is_nan() || other > self { other } else { self }
    }

    fn smaller(self, other: f64) -> f64 {
        if self.is_nan() || other < self { other } else { self }
    }

    fn square(self) -> f64 {
        self * self
    }

    fn root_of_squares(self, other: f64) -> f64 {
        (self * self + other * other).sqrt()
    }
}

/// The area of a piece: 0 where the difference comes out below 0.
pub fn not_below_zero(difference: f64) -> f64 {
    if difference < 0.0 { 0.0 } else { difference }
}

/// SplitMix64, under the name that the source gives its stream.
pub struct StdRng {
    state: u64,
}

impl StdRng {
    pub fn seed_from_u64(state: u64) -> Self {
        Self { state }
    }

    pub fn state(&self) -> u64 {
        self.state
    }

    fn next(&mut self) -> u64 {
        self.state = self.state.wrapping_add(0x9e37_79b9_7f4a_7c15);
        let mut z = self.state;
        z = (z ^ (z >> 30)).wrapping_mul(0xbf58_476d_1ce4_e5b9);
        z = (z ^ (z >> 27)).wrapping_mul(0x94d0_49bb_1331_11eb);
        z ^ (z >> 31)
    }

    pub fn random_range(&mut self, range: RangeInclusive<f64>) -> f64 {
        let (low, high) = (*range.start(), *range.end());
        let part = (self.next() >> 11) as f64 / (1u64 << 53) as f64;
        low + (high - low) * part
    }
}

/// The most cells that may wait at once in a deepest-point search.
pub const MOST_WAITING: usize = 1_600;

/// Unwinds out of a search in which more than [`MOST_WAITING`] cells wait.
pub struct TooManyWait;

/// A heap whose equal cells leave in order of entry, and which counts.
pub struct WaitingCells<T> {
    heap: BinaryHeap<Waiting<T>>,
    entered: u64,
}

struct Waiting<T> {
    cell: T,
    entry: u64,
}

impl<T: Ord> WaitingCells<T> {
    pub fn new() -> Self {
        Self { heap: BinaryHeap::new(), entered: 0 }
    }

    pub fn push(&mut self, cell: T) {
        let entry = self.entered;
        self.entered += 1;
        self.heap.push(Waiting { cell, entry });
        let waiting = self.heap.len();
        MOST.with(|most| most.set(most.get().max(waiting)));
        if waiting > MOST_WAITING {
            std::panic::resume_unwind(Box::new(TooManyWait));
        }
    }

    pub fn pop(&mut self) -> Option<T> {
        self.heap.pop().map(|waiting| waiting.cell)
    }
}

impl<T: Ord> Ord for Waiting<T> {
    fn cmp(&self, other: &Self) -> Ordering {
        self.cell.cmp(&other.cell).then(other.entry.cmp(&self.entry))
    }
}

impl<T: Ord> PartialOrd for Waiting<T> {
    fn partial_cmp(&self, other: &Self) -> Option<Ordering> {
        Some(self.cmp(other))
    }
}

impl<T: Ord> PartialEq for Waiting<T> {
    fn eq(&self, other: &Self) -> bool {
        self.cmp(other) == Ordering::Equal
    }
}

impl<T: Ord> Eq for Waiting<T> {}

thread_local! {
    static MOST: Cell<usize> = const { Cell::new(0) };
    static TRIALS: Cell<[u32; 2]> = const { Cell::new([0, 0]) };
}

/// Called by `auto_radius` when a trial begins.
pub fn trial(with_obstacles: bool) {
    TRIALS.with(|trials| {
        let mut counts = trials.get();
        counts[usize::from(with_obstacles)] += 1;
        trials.set(counts);
    });
}

pub fn forget_counts() {
    MOST.with(|most| most.set(0));
    TRIALS.with(|trials| trials.set([0, 0]));
}

pub fn most_waiting() -> usize {
    MOST.with(Cell::get)
}

pub fn trials() -> [u32; 2] {
    TRIALS.with(Cell::get)
}
