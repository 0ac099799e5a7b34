//! Jobs by kind and seed.

mod corners;
mod damage;
pub mod draft;
mod kinds;
mod shapes;

use crate::rng::Rng;

type Maker = fn(&mut Rng) -> Vec<u8>;

/// Every kind, with how often it comes in a round of the mixed run.
pub const KINDS: &[(&str, u64, Maker)] = &[
    ("convex", 4, |rng| kinds::convex(rng).bytes()),
    ("concave", 4, |rng| kinds::concave(rng).bytes()),
    ("crossed", 4, |rng| kinds::crossed(rng).bytes()),
    ("degenerate", 3, |rng| kinds::degenerate(rng).bytes()),
    ("holes", 4, |rng| kinds::holes(rng).bytes()),
    ("pieces", 4, |rng| kinds::pieces(rng).bytes()),
    ("slivers", 3, |rng| kinds::slivers(rng).bytes()),
    ("pillars", 6, |rng| kinds::pillars(rng).bytes()),
    ("symmetric", 6, |rng| kinds::symmetric(rng).bytes()),
    ("lone", 4, |rng| kinds::lone(rng).bytes()),
    ("crowd", 1, |rng| corners::crowd(rng).bytes()),
    ("far", 2, |rng| corners::far(rng).bytes()),
    ("edges", 4, |rng| corners::edges(rng).bytes()),
    ("empty", 2, |rng| corners::empty(rng).bytes()),
    ("search", 3, |rng| corners::search(rng).bytes()),
    ("ceiling", 3, |rng| corners::ceiling(rng).bytes()),
    ("walk", 1, |rng| corners::walk(rng).bytes()),
    ("limits", 24, damage::limits),
    ("cut", 4, damage::cut),
    ("spliced", 4, damage::spliced),
    ("flipped", 8, damage::flipped),
    ("shares", 3, |rng| kinds::shares(rng).bytes()),
    ("folded", 3, |rng| corners::folded(rng).bytes()),
    ("budget", 1, |rng| corners::budget(rng).bytes()),
    ("length", 1, damage::length),
];

pub fn job(kind: usize, seed: u64) -> Vec<u8> {
    let (_, _, make) = KINDS[kind];
    make(&mut Rng::new(kind as u64 + 1, seed))
}

/// The job of that number in the mixed run: its kind, its seed, its bytes.
pub fn mixed(number: u64) -> (usize, u64, Vec<u8>) {
    let round: u64 = KINDS.iter().map(|(_, share, _)| share).sum();
    let mut left = number % round;
    for (kind, (_, share, _)) in KINDS.iter().enumerate() {
        if left < *share {
            let seed = number / round * share + left;
            return (kind, seed, job(kind, seed));
        }
        left -= share;
    }
    unreachable!("the shares make up the round")
}

pub fn name(kind: usize, seed: u64) -> String {
    format!("{}-{seed}", KINDS[kind].0)
}
