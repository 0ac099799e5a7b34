//! The worked example of README.md, the empty input, and the key check.

use oracle::judge::{Lent, Outcome, answer, key_of};

use crate::generator::draft::{Draft, DraftZone};
use crate::tally::Tally;

/// Uniform, BestEffort, radius 1, gap 0 followed, precision 1, no obstacles,
/// zone `A`, count 1, square (0, 0) to (10, 10).
pub fn example() -> Draft {
    let side = 10 * 1_024;
    Draft {
        arrangement: 0,
        policy: 0,
        radius: Some(1_024),
        gap: 0,
        boundary_gap: None,
        precision: 1_024,
        attempts: 0,
        seed: 0,
        obstacles: Vec::new(),
        zones: vec![DraftZone {
            key: b"A".to_vec(),
            count: 1,
            pieces: vec![vec![vec![[0, 0], [side, 0], [side, side], [0, side]]]],
        }],
    }
}

const EXAMPLE_SHEET: &str =
    "00000021013FF0000000000000000101410001000040140000000000004014000000000000";

pub fn check(tally: &mut Tally) {
    let sheet = match answer(&example().bytes(), Lent::PROGRAM).outcome {
        Outcome::Sheet(sheet) => sheet,
        Outcome::Refused(number) => vec![number],
    };
    let hex: String = sheet.iter().map(|byte| format!("{byte:02X}")).collect();
    tally.count(hex == EXAMPLE_SHEET, || ("example.txt".into(), hex.into_bytes()));
    let empty = answer(&[], Lent::PROGRAM).outcome;
    tally.count(empty == Outcome::Refused(1), || ("empty.txt".into(), Vec::new()));
}

/// One set name for each key, which must print as the key: every single
/// character, and the longest keys.
pub fn check_keys(tally: &mut Tally) {
    let letters: Vec<u8> = (b'0'..=b'9').chain(b'A'..=b'Z').chain(b'a'..=b'z').collect();
    for letter in &letters {
        for length in [1, 2, 32] {
            let key = vec![*letter; length];
            tally.count(key_of(&key).into_bytes() == key, || ("key.txt".into(), key.clone()));
        }
    }
}
