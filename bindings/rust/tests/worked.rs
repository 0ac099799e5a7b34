//! The worked example through the wrapper, refusals, and lent slices.

use marks::{LONGEST_SHEET, Sheet, Spot, Trials, WORK_FLOATS, Zone, plan, plan_into};

/// Uniform, BestEffort, radius 1, gap 0 followed, precision 1, no obstacles,
/// zone `A`, count 1, square (0, 0) to (10, 10).
const JOB: &str = "0000004d010000010000040000000000000000000000000400000000000000000000000000\
                   0000000101410001010100040000000000000000000028000000000000002800000028000000000000002800";
const SHEET: &str = "00000021013FF0000000000000000101410001000040140000000000004014000000000000";

fn bytes(hex: &str) -> Vec<u8> {
    let digits = hex.as_bytes().chunks(2).map(|two| str::from_utf8(two).unwrap());
    digits.map(|two| u8::from_str_radix(two, 16).unwrap()).collect()
}

#[test]
fn worked_example() {
    let plan = plan(&bytes(JOB)).unwrap();
    let zone = Zone { key: "A".into(), spots: vec![Spot { x: 5.0, y: 5.0 }], unplaced: 0 };
    assert_eq!((plan.radius, plan.unplaced()), (1.0, 0));
    assert_eq!(plan.zones, [zone]);
    assert_eq!(plan.trials, Trials { free_of_obstacles: 0, with_obstacles: 0 });
}

#[test]
fn automatic_radius() {
    let mut job = bytes(JOB);
    job[7..12].fill(0);
    let plan = plan(&job).unwrap();
    assert!(plan.radius > 1.0 && plan.zones[0].spots.len() == 1);
    assert!(plan.trials.free_of_obstacles > 0 && plan.trials.with_obstacles == 0);
}

#[test]
fn refusals() {
    assert_eq!(plan(&[]).unwrap_err().number(), 1);
    let mut job = bytes(JOB);
    job[4] = 2;
    let refusal = plan(&job).unwrap_err();
    assert_eq!(refusal.to_string(), "refused 3: the version is not 1");
}

#[test]
fn lent_slices() {
    let job = bytes(JOB);
    let mut first = vec![7.0; WORK_FLOATS + 1];
    let mut second = vec![7.0; WORK_FLOATS];
    let mut buffer = vec![9; LONGEST_SHEET];
    let given = plan_into(&job, &mut first, &mut second, &mut buffer).unwrap();
    assert_eq!(given.sheet, bytes(SHEET));
    assert!(
        first[..WORK_FLOATS].iter().all(|float| float.to_bits() == 0) && first[WORK_FLOATS] == 7.0
    );
    assert!(buffer[37..].iter().all(|byte| *byte == 9));

    let mut short = [9; 36];
    let refused = plan_into(&job, &mut first, &mut second, &mut short);
    assert_eq!(refused.unwrap_err().number(), 14);
    assert_eq!(short, [9; 36]);
    second.truncate(WORK_FLOATS - 1);
    let refused = plan_into(&job, &mut first, &mut second, &mut buffer);
    assert_eq!(refused.unwrap_err().number(), 2);
}

#[test]
fn sheets_that_are_none() {
    let sheet = bytes(SHEET);
    assert_eq!(Sheet::read(&sheet).unwrap().zones.len(), 1);
    for length in 0..sheet.len() {
        assert_eq!(Sheet::read(&sheet[..length]), None);
    }
    for (at, value) in [(3, 0x20), (4, 2), (14, 0), (14, 2), (15, 2), (18, 2)] {
        let mut other = sheet.clone();
        other[at] = value;
        assert_eq!(Sheet::read(&other), None);
    }
}
