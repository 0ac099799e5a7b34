//! A job before it is bytes, and where each of its items stands in them.

pub type Ring = Vec<[i32; 2]>;
pub type Piece = Vec<Ring>;

#[derive(Clone)]
pub struct Draft {
    pub arrangement: u8,
    pub policy: u8,
    pub radius: Option<u32>,
    pub gap: u32,
    pub boundary_gap: Option<u32>,
    pub precision: u32,
    pub attempts: u32,
    pub seed: u64,
    pub obstacles: Vec<[i32; 4]>,
    pub zones: Vec<DraftZone>,
}

#[derive(Clone)]
pub struct DraftZone {
    pub key: Vec<u8>,
    pub count: u16,
    pub pieces: Vec<Piece>,
}

#[derive(Clone, Copy, Debug, PartialEq, Eq)]
pub enum Field {
    Version,
    Arrangement,
    Policy,
    RadiusKind,
    Radius,
    Gap,
    BoundaryKind,
    BoundaryGap,
    Precision,
    Attempts,
    Seed,
    ObstacleCount,
    ObstacleNumber,
    ZoneCount,
    KeyLength,
    KeyByte,
    MarkCount,
    PieceCount,
    RingCount,
    VertexCount,
    Coordinate,
}

/// An item of the written job: what it is, its first byte, its length.
#[derive(Clone, Copy, Debug)]
pub struct Place {
    pub field: Field,
    pub at: usize,
    pub length: usize,
}

pub struct Written {
    pub bytes: Vec<u8>,
    pub places: Vec<Place>,
}

impl Written {
    fn put(&mut self, field: Field, item: &[u8]) {
        self.places.push(Place { field, at: self.bytes.len(), length: item.len() });
        self.bytes.extend(item);
    }

    pub fn overwrite(&mut self, place: Place, value: i64) {
        let item = &value.to_be_bytes()[8 - place.length..];
        self.bytes[place.at..place.at + place.length].copy_from_slice(item);
    }
}

/// Makes the length field name the rest of the bytes.
pub fn mend_length(bytes: &mut [u8]) {
    let rest = (bytes.len() - 4) as u32;
    bytes[..4].copy_from_slice(&rest.to_be_bytes());
}

impl Draft {
    pub fn write(&self) -> Written {
        let mut out = Written { bytes: vec![0; 4], places: Vec::new() };
        out.put(Field::Version, &[1]);
        out.put(Field::Arrangement, &[self.arrangement]);
        out.put(Field::Policy, &[self.policy]);
        put_option(&mut out, Field::RadiusKind, Field::Radius, self.radius);
        out.put(Field::Gap, &self.gap.to_be_bytes());
        put_option(&mut out, Field::BoundaryKind, Field::BoundaryGap, self.boundary_gap);
        out.put(Field::Precision, &self.precision.to_be_bytes());
        out.put(Field::Attempts, &self.attempts.to_be_bytes());
        out.put(Field::Seed, &self.seed.to_be_bytes());
        out.put(Field::ObstacleCount, &(self.obstacles.len() as u16).to_be_bytes());
        for number in self.obstacles.iter().flatten() {
            out.put(Field::ObstacleNumber, &number.to_be_bytes());
        }
        out.put(Field::ZoneCount, &(self.zones.len() as u16).to_be_bytes());
        for zone in &self.zones {
            put_zone(&mut out, zone);
        }
        mend_length(&mut out.bytes);
        out
    }

    pub fn bytes(&self) -> Vec<u8> {
        self.write().bytes
    }
}

fn put_option(out: &mut Written, kind: Field, number: Field, value: Option<u32>) {
    out.put(kind, &[u8::from(value.is_some())]);
    out.put(number, &value.unwrap_or(0).to_be_bytes());
}

fn put_zone(out: &mut Written, zone: &DraftZone) {
    out.put(Field::KeyLength, &[zone.key.len() as u8]);
    for byte in &zone.key {
        out.put(Field::KeyByte, &[*byte]);
    }
    out.put(Field::MarkCount, &zone.count.to_be_bytes());
    out.put(Field::PieceCount, &[zone.pieces.len() as u8]);
    for piece in &zone.pieces {
        out.put(Field::RingCount, &[piece.len() as u8]);
        for ring in piece {
            out.put(Field::VertexCount, &(ring.len() as u16).to_be_bytes());
            for number in ring.iter().flatten() {
                out.put(Field::Coordinate, &number.to_be_bytes());
            }
        }
    }
}
