//! Inputs of the leaves: root, hash, radical inverse, quotas.

use crate::rng::Rng;

/// A float for the root, the numbers going through every exponent.
pub fn radicand(number: u64) -> f64 {
    let mut rng = Rng::new(1, number);
    let exponent = number % 2_048;
    let mantissa = (1 << 52) - 1;
    let bits = match number / 2_048 % 9 {
        0 => exponent << 52 | rng.bits() & mantissa,
        1 => exponent << 52 | rng.bits() & 15,
        2 => exponent << 52 | mantissa - (rng.bits() & 15),
        3 => near_square(&mut rng, exponent),
        4 => near_midpoint(&mut rng, exponent),
        5 => rng.bits() & mantissa >> (number % 52),
        6 => 1 << 63 | exponent << 52 | rng.bits() & mantissa,
        7 => exponent << 52 | 1 << (rng.bits() % 53) & mantissa,
        _ => special(&mut rng, number),
    };
    f64::from_bits(bits)
}

/// The square of a float of at most 26 bits, and its neighbours.
fn near_square(rng: &mut Rng, exponent: u64) -> u64 {
    let root = (rng.bits() >> 38 | 1 << 25) as f64;
    moved(rng, root * root, exponent)
}

/// The square of the middle between two floats, and its neighbours.
fn near_midpoint(rng: &mut Rng, exponent: u64) -> u64 {
    let middle = u128::from(rng.bits() >> 11 | 1 << 52) * 2 + 1;
    moved(rng, (middle * middle) as f64, exponent)
}

/// The float moved by an even exponent to about `exponent`, and a step or two.
fn moved(rng: &mut Rng, value: f64, exponent: u64) -> u64 {
    let bits = value.to_bits();
    let from = bits >> 52;
    let to = exponent.clamp(1, 2_045);
    let to = to + (to + from) % 2;
    let step = rng.between(-2, 2) as u64;
    (to << 52 | bits & ((1 << 52) - 1)).wrapping_add(step)
}

fn special(rng: &mut Rng, number: u64) -> u64 {
    let sign = (number / 7 % 2) << 63;
    let magnitude = match number % 7 {
        0 => 0,
        1 => 0x7ff0_0000_0000_0000,
        2 => 0x7ff8_0000_0000_0000 | rng.bits() & 0xffff,
        3 => 0x7ff0_0000_0000_0000 | rng.bits() >> 13 | 1,
        4 => rng.bits() & 0xff,
        5 => 0x7fef_ffff_ffff_ffff - (rng.bits() & 7),
        _ => 0x0010_0000_0000_0000 + (rng.bits() & 7) - 4,
    };
    sign | magnitude
}

pub fn hashed(number: u64) -> Vec<u8> {
    let mut rng = Rng::new(2, number);
    let length = if number % 64 == 0 { rng.index(2_000) } else { rng.index(40) };
    (0..length).map(|_| rng.bits() as u8).collect()
}

/// Index and base.
pub fn inverse_input(number: u64) -> (u64, u64) {
    let mut rng = Rng::new(3, number);
    let base = match rng.index(8) {
        0 => rng.pick(&[0, 1, 65_536, 65_537, u64::MAX]),
        1 => rng.bits(),
        2 => rng.between(2, 65_536) as u64,
        3 | 4 => 2,
        5 | 6 => 3,
        _ => rng.between(2, 20) as u64,
    };
    let power = base.checked_pow(rng.index(40) as u32).unwrap_or(u64::MAX);
    let index = match rng.index(6) {
        0 => rng.bits(),
        1 => rng.bits() >> rng.index(64),
        2 => power,
        3 => power.wrapping_sub(1),
        4 => number % 1_000_003,
        _ => rng.pick(&[0, 1, u64::MAX, u64::from(u32::MAX), 1 << 32, 1_000_000]),
    };
    (index, base)
}

pub struct QuotaInput {
    pub count: u64,
    pub weights: Vec<f64>,
    /// Entries of the answer slice.
    pub room: usize,
}

pub fn quota_input(number: u64) -> QuotaInput {
    let mut rng = Rng::new(4, number);
    let count = match rng.index(8) {
        0 => rng.pick(&[0, 1, 1_999, 2_000, 2_001, u64::MAX]),
        _ => rng.between(0, 2_000) as u64,
    };
    let length = match rng.index(16) {
        0 => rng.pick(&[0, 16, 17, 40]),
        _ => rng.between(1, 16) as usize,
    };
    let manner = rng.index(6);
    let weights = (0..length).map(|_| weight(&mut rng, manner)).collect();
    let room = match rng.index(8) {
        0 => length.saturating_sub(1),
        1 => length + rng.index(4),
        2 => rng.index(20),
        _ => length,
    };
    QuotaInput { count, weights, room }
}

fn weight(rng: &mut Rng, manner: usize) -> f64 {
    let odd = [
        f64::NAN,
        f64::INFINITY,
        -0.0,
        0.0,
        f64::MIN_POSITIVE,
        f64::from_bits(1),
        f64::MAX,
        -1.0,
        f64::NEG_INFINITY,
        -f64::NAN,
        -f64::from_bits(1),
    ];
    match manner {
        0 => rng.pick(&[1.0, 1.0, 1.0, 2.0, 0.0]),
        1 => rng.between(0, 2_097_152) as f64 / 1_048_576.0,
        2 => rng.unit(),
        3 => rng.pick(&[0.0, -0.0, 0.0, 1.0]),
        4 => f64::from_bits(rng.bits() >> 1),
        _ if rng.one_in(4) => rng.pick(&odd),
        _ => rng.between(0, 9) as f64,
    }
}
