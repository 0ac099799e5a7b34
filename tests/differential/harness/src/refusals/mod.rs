//! Every refusal at and beside its limit. The expected numbers are written
//! by hand from README.md's table, 0 for a job that is given its sheet.

use oracle::judge::{Lent, Outcome, answer};

use crate::generator::draft::{Draft, DraftZone, Field, mend_length};
use crate::tally::Tally;
use crate::worked::example;

mod later;

struct Case {
    name: String,
    bytes: Vec<u8>,
    lent: Lent,
    expected: u8,
}

#[derive(Default)]
struct Cases(Vec<Case>);

impl Cases {
    fn bytes(&mut self, name: &str, bytes: Vec<u8>, expected: u8) {
        self.0.push(Case { name: name.into(), bytes, lent: Lent::PROGRAM, expected });
    }

    fn draft(&mut self, name: &str, draft: &Draft, expected: u8) {
        self.bytes(name, draft.bytes(), expected);
    }

    fn lent(&mut self, name: &str, bytes: Vec<u8>, lent: Lent, expected: u8) {
        self.bytes(name, bytes, expected);
        self.0.last_mut().expect("a case was added").lent = lent;
    }

    /// The last item of that kind overwritten.
    fn patch(&mut self, draft: &Draft, field: Field, value: i64, expected: u8) {
        let mut written = draft.write();
        let places = written.places.iter();
        let place = *places.rev().find(|place| place.field == field).expect("the item is there");
        written.overwrite(place, value);
        self.bytes(&format!("{field:?} {value}"), written.bytes, expected);
    }
}

/// The cases that the job program can meet, by name.
pub fn for_program() -> Vec<(String, Vec<u8>)> {
    let lent = |case: &Case| {
        let Lent { first, second, sheet } = case.lent;
        [first, second, sheet] == [Lent::PROGRAM.first, Lent::PROGRAM.second, Lent::PROGRAM.sheet]
    };
    let cases = all().0.into_iter().filter(lent);
    cases.map(|case| (case.name.replace(' ', "-"), case.bytes)).collect()
}

fn all() -> Cases {
    let mut cases = Cases::default();
    lengths_and_slices(&mut cases);
    head(&mut cases);
    obstacles_and_zones(&mut cases);
    lists(&mut cases);
    keys_and_marks(&mut cases);
    later::after_reading(&mut cases);
    later::order(&mut cases);
    cases
}

pub fn check(tally: &mut Tally) {
    for case in all().0 {
        let number = match answer(&case.bytes, case.lent).outcome {
            Outcome::Refused(number) => number,
            Outcome::Sheet(_) => 0,
        };
        if number != case.expected {
            println!("{}: {} expected, {number} answered", case.name, case.expected);
        }
        tally.count(number == case.expected, || (format!("{}.job", case.name), case.bytes));
    }
}

fn with_pillar() -> Draft {
    Draft { obstacles: vec![[0, 0, 10, 10]], ..example() }
}

fn lengths_and_slices(cases: &mut Cases) {
    let job = with_pillar().bytes();
    for length in 0..5 {
        cases.bytes("short", job[..length].to_vec(), 1);
    }
    cases.bytes("version alone", vec![0, 0, 0, 1, 1], 6);
    cases.bytes("wrong version alone", vec![0, 0, 0, 1, 0], 3);
    for wrong in [job.len() - 5, job.len() - 3, job.len(), 0] {
        let mut bytes = job.clone();
        bytes[..4].copy_from_slice(&(wrong as u32).to_be_bytes());
        cases.bytes("length field", bytes, 1);
    }
    for length in 5..job.len() {
        let mut bytes = job[..length].to_vec();
        mend_length(&mut bytes);
        cases.bytes(&format!("cut to {length}"), bytes, 6);
    }
    let mut long = job.clone();
    long.push(0);
    mend_length(&mut long);
    cases.bytes("one byte left over", long, 7);
    for (length, expected) in [(65_536, 7), (65_537, 1)] {
        let mut bytes = job.clone();
        bytes.resize(length, 0);
        mend_length(&mut bytes);
        cases.bytes("whole length", bytes, expected);
    }
    for (first, second, expected) in [(7_999, 8_000, 2), (8_000, 7_999, 2), (8_000, 8_000, 0)] {
        let lent = Lent { first, second, ..Lent::PROGRAM };
        cases.lent("work slices", job.clone(), lent, expected);
    }
}

fn head(cases: &mut Cases) {
    let stated = Draft { boundary_gap: Some(0), ..with_pillar() };
    let automatic = Draft { radius: None, ..with_pillar() };
    for (field, value, expected) in [
        (Field::Version, 0, 3),
        (Field::Version, 2, 3),
        (Field::Arrangement, 3, 0),
        (Field::Arrangement, 4, 4),
        (Field::Policy, 1, 0),
        (Field::Policy, 2, 4),
        (Field::RadiusKind, 2, 4),
        (Field::RadiusKind, 0, 5),
        (Field::Radius, 0, 0),
        (Field::Radius, 1_048_576, 0),
        (Field::Radius, 1_048_577, 4),
        (Field::Gap, 16_384, 0),
        (Field::Gap, 16_385, 4),
        (Field::BoundaryKind, 2, 4),
        (Field::BoundaryGap, 16_384, 0),
        (Field::BoundaryGap, 16_385, 4),
        (Field::Precision, 0, 4),
        (Field::Precision, 1, 0),
        (Field::Precision, 1_048_576, 0),
        (Field::Precision, 1_048_577, 4),
        (Field::Attempts, 2_000, 0),
        (Field::Attempts, 2_001, 4),
        (Field::Seed, -1, 0),
    ] {
        cases.patch(&stated, field, value, expected);
    }
    for (field, value) in [
        (Field::Radius, 1),
        (Field::Radius, 1_048_577),
        (Field::BoundaryGap, 1),
        (Field::BoundaryGap, 16_385),
    ] {
        cases.patch(&automatic, field, value, 5);
    }
}

fn obstacles_and_zones(cases: &mut Cases) {
    for place in 0..4 {
        for (value, expected) in [(-1_048_577, 8), (-1_048_576, 0), (1_048_576, 0), (1_048_577, 8)]
        {
            let mut draft = with_pillar();
            draft.obstacles[0][place] = value;
            cases.draft(&format!("obstacle {place} {value}"), &draft, expected);
        }
    }
    for (field, value, expected) in [
        (Field::ObstacleCount, 65, 8),
        (Field::ZoneCount, 65, 9),
        (Field::KeyLength, 0, 9),
        (Field::KeyLength, 33, 9),
        (Field::MarkCount, 0, 0),
        (Field::MarkCount, 2_000, 0),
        (Field::MarkCount, 2_001, 9),
        (Field::PieceCount, 17, 9),
        (Field::RingCount, 0, 9),
        (Field::RingCount, 10, 9),
        (Field::VertexCount, 257, 9),
        (Field::Coordinate, -1_048_577, 13),
        (Field::Coordinate, -1_048_576, 0),
        (Field::Coordinate, 1_048_576, 0),
        (Field::Coordinate, 1_048_577, 13),
    ] {
        cases.patch(&with_pillar(), field, value, expected);
    }
}

fn empty_zone(key: &[u8], count: u16) -> DraftZone {
    DraftZone { key: key.to_vec(), count, pieces: Vec::new() }
}

fn with_zones(zones: Vec<DraftZone>) -> Draft {
    Draft { zones, ..example() }
}

fn lists(cases: &mut Cases) {
    let square = example().zones[0].pieces[0][0].clone();
    for over in 0..2 {
        let expected = |number: u8| if over == 0 { 0 } else { number };
        let mut draft = example();
        draft.obstacles = vec![[0, 0, 10, 10]; 64 + over];
        cases.draft("obstacles", &draft, expected(8));
        let zones = (0..64 + over).map(|k| empty_zone(format!("k{k:02}").as_bytes(), 1));
        cases.draft("zones", &with_zones(zones.collect()), expected(9));
        let key = vec![b'k'; 32 + over];
        cases.draft("key", &with_zones(vec![empty_zone(&key, 1)]), expected(9));
        let mut draft = example();
        draft.zones[0].pieces = vec![vec![square.clone()]; 16 + over];
        cases.draft("pieces", &draft, expected(9));
        draft.zones[0].pieces = vec![vec![square.clone(); 9 + over]];
        cases.draft("rings", &draft, expected(9));
        let mut ring = square.clone();
        ring.resize(256 + over, [0, 10_240]);
        draft.zones[0].pieces = vec![vec![ring]];
        cases.draft("vertices", &draft, expected(9));
    }
    cases.draft("no zones", &with_zones(Vec::new()), 0);
    let mut draft = example();
    draft.zones[0].pieces = vec![vec![Vec::new()]];
    cases.draft("no vertices", &draft, 0);
}

fn keys_and_marks(cases: &mut Cases) {
    for (byte, expected) in [
        (b'/', 10),
        (b'0', 0),
        (b'9', 0),
        (b':', 10),
        (b'@', 10),
        (b'A', 0),
        (b'Z', 0),
        (b'[', 10),
        (b'`', 10),
        (b'a', 0),
        (b'z', 0),
        (b'{', 10),
        (0, 10),
        (b'&', 10),
        (b' ', 10),
        (255, 10),
    ] {
        cases.patch(&example(), Field::KeyByte, byte.into(), expected);
    }
    for (first, second, expected) in [
        ("a", "a", 11),
        ("b", "a", 11),
        ("ab", "a", 11),
        ("a", "ab", 0),
        ("a", "b", 0),
        ("Z", "a", 0),
        ("a", "Z", 11),
        ("9", "A", 0),
    ] {
        let zones = vec![empty_zone(first.as_bytes(), 0), empty_zone(second.as_bytes(), 1)];
        cases.draft(&format!("keys {first} {second}"), &with_zones(zones), expected);
    }
    for (last, expected) in [(1_000, 0), (1_001, 12), (2_000, 12), (2_001, 9)] {
        let zones = vec![empty_zone(b"a", 1_000), empty_zone(b"b", last)];
        cases.draft(&format!("marks 1000 and {last}"), &with_zones(zones), expected);
    }
}
