//! Faults in the limits of the job, of the sheet and of rows 14 to 16.

use super::{Fault, fault};

const JOB: &str = "job.rs";
const SHEET: &str = "sheet.rs";
const JUDGE: &str = "judge.rs";
const STAND_INS: &str = "stand_ins.rs";

#[rustfmt::skip]
pub const FAULTS: &[Fault] = &[
    fault("least-bytes", JOB, "LEAST_BYTES: usize = 5", "LEAST_BYTES: usize = 6"),
    fault("most-bytes", JOB, "MOST_BYTES: usize = 65_536", "MOST_BYTES: usize = 65_535"),
    fault("length-field", JOB, "bytes.len() - 4 {", "bytes.len() - 4 && rest != 0 {"),
    fault("work-slices", JOB, "WORK_FLOATS: usize = 8_000", "WORK_FLOATS: usize = 7_999"),
    fault("second-work-slice", JOB, " || second < WORK_FLOATS", ""),
    fault("version", JOB, "if items.u8()? != 1 {", "if items.u8()? > 1 {"),
    fault("arrangement", JOB, "arrangement = within(items.u8()?, 0, 3, 4)", "arrangement = within(items.u8()?, 0, 4, 4)"),
    fault("policy", JOB, "policy = within(items.u8()?, 0, 1, 4)", "policy = within(items.u8()?, 0, 2, 4)"),
    fault("kind", JOB, "kind = within(items.u8()?, 0, 1, 4)", "kind = within(items.u8()?, 0, 2, 4)"),
    fault("number-after-kind-0", JOB, "within(number, 0, 0, 5)", "within(number, 0, 1, 5)"),
    fault("number-after-kind-0-refused-as-4", JOB, "within(number, 0, 0, 5)", "within(number, 0, 0, 4)"),
    fault("radius-limit", JOB, "read_option(items, 1_048_576)", "read_option(items, 1_048_577)"),
    fault("gap-limit", JOB, "gap = within(items.u32()?, 0, 16_384, 4)", "gap = within(items.u32()?, 0, 16_385, 4)"),
    fault("boundary-gap-limit", JOB, "read_option(items, 16_384)", "read_option(items, 16_383)"),
    fault("precision-least", JOB, "within(items.u32()?, 1, 1_048_576, 4)", "within(items.u32()?, 2, 1_048_576, 4)"),
    fault("precision-most", JOB, "within(items.u32()?, 1, 1_048_576, 4)", "within(items.u32()?, 1, 1_048_577, 4)"),
    fault("attempts-limit", JOB, "within(items.u32()?, 0, 2_000, 4)", "within(items.u32()?, 0, 2_001, 4)"),
    fault("obstacle-count", JOB, "within(items.u16()?, 0, 64, 8)", "within(items.u16()?, 0, 65, 8)"),
    fault("obstacle-number-refused-as-13", JOB, "items.place(8)", "items.place(13)"),
    fault("zone-count", JOB, "within(items.u16()?, 0, 64, 9)", "within(items.u16()?, 0, 63, 9)"),
    fault("key-length-least", JOB, "within(items.u8()?, 1, 32, 9)", "within(items.u8()?, 0, 32, 9)"),
    fault("key-length-most", JOB, "within(items.u8()?, 1, 32, 9)", "within(items.u8()?, 1, 31, 9)"),
    fault("key-byte", JOB, "b'0'..=b'9'", "b'0'..=b':'"),
    fault("key-order", JOB, "key <= last.key", "key < last.key"),
    fault("mark-count", JOB, "within(items.u16()?, 0, 2_000, 9)", "within(items.u16()?, 0, 2_001, 9)"),
    fault("mark-total", JOB, "marks > MOST_MARKS", "marks >= MOST_MARKS"),
    fault("piece-count", JOB, "within(items.u8()?, 0, 16, 9)", "within(items.u8()?, 0, 17, 9)"),
    fault("ring-count-most", JOB, "within(items.u8()?, 1, 9, 9)", "within(items.u8()?, 1, 10, 9)"),
    fault("ring-count-least", JOB, "within(items.u8()?, 1, 9, 9)", "within(items.u8()?, 2, 9, 9)"),
    fault("vertex-count", JOB, "within(items.u16()?, 0, 256, 9)", "within(items.u16()?, 0, 255, 9)"),
    fault("place-limit", JOB, "FARTHEST: i64 = 1_048_576", "FARTHEST: i64 = 1_048_577"),
    fault("place-least", JOB, "i64::from(number), -FARTHEST,", "i64::from(number), 1 - FARTHEST,"),
    fault("bytes-left-over", JOB, "if items.at < bytes.len() {", "if items.at + 1 < bytes.len() {"),
    fault("sheet-buffer", SHEET, "    15 + zones", "    14 + zones"),
    fault("zones-left-out-need-buffer", JUDGE, "let zones = job.zones.iter().filter(|zone| zone.left_in());\n    if", "let zones = job.zones.iter();\n    if"),
    fault("waiting-cells-1601", STAND_INS, "MOST_WAITING: usize = 1_600", "MOST_WAITING: usize = 1_601"),
    fault("waiting-cells-1599", STAND_INS, "MOST_WAITING: usize = 1_600", "MOST_WAITING: usize = 1_599"),
    fault("ceiling-at-limit", JUDGE, "ceiling < 1.0 / 1024.0", "ceiling <= 1.0 / 1024.0"),
];
