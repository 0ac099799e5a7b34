//! Rows 14 to 16, and which of two faults is answered.

use oracle::judge::Lent;

use super::{Cases, empty_zone, with_pillar, with_zones};
use crate::generator::draft::{Draft, DraftZone, mend_length};
use crate::worked::example;

/// A rectangle of `cells` squares side by side, 64 high.
fn gallery(cells: i32) -> Draft {
    let (long, high) = (64 * cells, 64);
    let mut draft = example();
    draft.radius = None;
    draft.zones[0].pieces = vec![vec![vec![[0, 0], [long, 0], [long, high], [0, high]]]];
    draft.precision = 1_048_576;
    draft
}

fn square_of(side: i32) -> Draft {
    let mut draft = example();
    (draft.radius, draft.precision) = (None, 1);
    draft.zones[0].pieces = vec![vec![vec![[0, 0], [side, 0], [side, side], [0, side]]]];
    draft
}

pub fn after_reading(cases: &mut Cases) {
    let job = with_pillar().bytes();
    for (sheet, expected) in [(36, 14), (37, 0), (0, 14)] {
        cases.lent("buffer", job.clone(), Lent { sheet, ..Lent::PROGRAM }, expected);
    }
    let left_out = with_zones(vec![empty_zone(b"a", 9)]).bytes();
    for (sheet, expected) in [(14, 14), (15, 0)] {
        cases.lent("buffer", left_out.clone(), Lent { sheet, ..Lent::PROGRAM }, expected);
    }
    cases.draft("1600 cells", &gallery(1_600), 0);
    cases.draft("1601 cells", &gallery(1_601), 15);
    let split = Draft { precision: 1, ..gallery(1_600) };
    cases.draft("1600 cells, one split", &split, 15);
    let stated = |arrangement, count| {
        let mut draft = gallery(1_601);
        (draft.radius, draft.arrangement) = (Some(1), arrangement);
        draft.zones[0].count = count;
        draft
    };
    for (arrangement, count, expected) in
        [(0, 1, 15), (1, 1, 15), (2, 1, 15), (2, 2, 0), (3, 1, 0), (0, 0, 0)]
    {
        cases.draft("stated, 1601 cells", &stated(arrangement, count), expected);
    }
    cases.draft("radius 0, 1601 cells", &Draft { radius: Some(0), ..stated(0, 1) }, 0);
    cases.draft("ceiling 2^-10", &square_of(2), 0);
    cases.draft("ceiling 2^-11", &square_of(1), 16);
    cases.draft("no ceiling", &square_of(0), 0);
    cases.draft("stated below 2^-10", &Draft { radius: Some(1), ..square_of(1) }, 0);
}

pub fn order(cases: &mut Cases) {
    let mut bad = with_pillar();
    (bad.arrangement, bad.obstacles[0][0]) = (4, 1_048_577);
    cases.draft("4 before 8", &bad, 4);
    bad.arrangement = 0;
    bad.zones[0].key = b"&".to_vec();
    cases.draft("8 before 10", &bad, 8);
    let mut short = with_pillar().bytes();
    short[4] = 9;
    let lent = Lent { first: 0, second: 0, sheet: 0 };
    cases.lent("2 before 3", short.clone(), lent, 2);
    cases.lent("3 before 14", short, Lent { sheet: 0, ..Lent::PROGRAM }, 3);
    cases.lent("1 before 2", vec![1; 4], lent, 1);
    let mut long = example().bytes();
    long.push(0);
    mend_length(&mut long);
    cases.lent("7 before 14", long, Lent { sheet: 0, ..Lent::PROGRAM }, 7);
    let gallery_bytes = gallery(1_601).bytes();
    cases.lent("14 before 15", gallery_bytes, Lent { sheet: 36, ..Lent::PROGRAM }, 14);
    let mut both = square_of(1);
    both.zones.push(DraftZone { key: b"B".to_vec(), ..gallery(1_601).zones[0].clone() });
    cases.draft("15 before 16", &both, 15);
    let mut marks = with_zones(vec![empty_zone(b"b", 1_500), empty_zone(b"a", 1_500)]);
    cases.draft("11 before 12", &marks, 11);
    marks.zones[1].key = b"c".to_vec();
    cases.draft("12 after 11", &marks, 12);
}
