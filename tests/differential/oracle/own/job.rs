//! The job reader, written from the rules of the format alone. A fault is the
//! number of its refusal; the checks stand in the order that README.md gives.

pub struct Job {
    pub head: Head,
    pub obstacles: Vec<[i32; 4]>,
    pub zones: Vec<Zone>,
}

pub struct Head {
    pub arrangement: u8,
    pub policy: u8,
    pub radius: Option<u32>,
    pub gap: u32,
    pub boundary_gap: Option<u32>,
    pub precision: u32,
    pub attempts: u32,
    pub seed: u64,
}

pub struct Zone {
    pub key: Vec<u8>,
    pub count: u16,
    pub pieces: Vec<Piece>,
}

/// The rings of a piece, the outer one first.
pub type Piece = Vec<Vec<[i32; 2]>>;

impl Zone {
    pub fn left_in(&self) -> bool {
        self.count > 0 && !self.pieces.is_empty()
    }
}

const LEAST_BYTES: usize = 5;
const MOST_BYTES: usize = 65_536;
const WORK_FLOATS: usize = 8_000;
const MOST_MARKS: u32 = 2_000;
const FARTHEST: i64 = 1_048_576;

/// Row 1: the lent bytes and their length field.
pub fn check_length(bytes: &[u8]) -> Result<(), u8> {
    if bytes.len() < LEAST_BYTES || bytes.len() > MOST_BYTES {
        return Err(1);
    }
    let rest = u32::from_be_bytes([bytes[0], bytes[1], bytes[2], bytes[3]]);
    if rest as usize != bytes.len() - 4 {
        return Err(1);
    }
    Ok(())
}

/// Row 2: the lent work slices.
pub fn check_work(first: usize, second: usize) -> Result<(), u8> {
    if first < WORK_FLOATS || second < WORK_FLOATS {
        return Err(2);
    }
    Ok(())
}

/// Rows 3 to 13 and 7, left to right, of bytes that passed row 1.
pub fn read(bytes: &[u8]) -> Result<Job, u8> {
    let mut items = Items { bytes, at: 4 };
    if items.u8()? != 1 {
        return Err(3);
    }
    let head = read_head(&mut items)?;
    let obstacles = read_obstacles(&mut items)?;
    let zones = read_zones(&mut items)?;
    if items.at < bytes.len() {
        return Err(7);
    }
    Ok(Job { head, obstacles, zones })
}

fn read_head(items: &mut Items) -> Result<Head, u8> {
    let arrangement = within(items.u8()?, 0, 3, 4)?;
    let policy = within(items.u8()?, 0, 1, 4)?;
    let radius = read_option(items, 1_048_576)?;
    let gap = within(items.u32()?, 0, 16_384, 4)?;
    let boundary_gap = read_option(items, 16_384)?;
    let precision = within(items.u32()?, 1, 1_048_576, 4)?;
    let attempts = within(items.u32()?, 0, 2_000, 4)?;
    let seed = items.u64()?;
    Ok(Head { arrangement, policy, radius, gap, boundary_gap, precision, attempts, seed })
}

/// A kind, and a number that is 0 after kind 0.
fn read_option(items: &mut Items, most: u32) -> Result<Option<u32>, u8> {
    let kind = within(items.u8()?, 0, 1, 4)?;
    let number = items.u32()?;
    if kind == 0 {
        within(number, 0, 0, 5)?;
        return Ok(None);
    }
    within(number, 0, most, 4).map(Some)
}

fn read_obstacles(items: &mut Items) -> Result<Vec<[i32; 4]>, u8> {
    let count = within(items.u16()?, 0, 64, 8)?;
    let mut obstacles = Vec::new();
    for _ in 0..count {
        let mut obstacle = [0; 4];
        for number in &mut obstacle {
            *number = items.place(8)?;
        }
        obstacles.push(obstacle);
    }
    Ok(obstacles)
}

fn read_zones(items: &mut Items) -> Result<Vec<Zone>, u8> {
    let zone_count = within(items.u16()?, 0, 64, 9)?;
    let mut zones: Vec<Zone> = Vec::new();
    let mut marks = 0;
    for _ in 0..zone_count {
        let key = read_key(items)?;
        if zones.last().is_some_and(|last| key <= last.key) {
            return Err(11);
        }
        let count = within(items.u16()?, 0, 2_000, 9)?;
        marks += u32::from(count);
        if marks > MOST_MARKS {
            return Err(12);
        }
        let piece_count = within(items.u8()?, 0, 16, 9)?;
        let mut pieces = Vec::new();
        for _ in 0..piece_count {
            pieces.push(read_piece(items)?);
        }
        zones.push(Zone { key, count, pieces });
    }
    Ok(zones)
}

fn read_key(items: &mut Items) -> Result<Vec<u8>, u8> {
    let length = within(items.u8()?, 1, 32, 9)?;
    let mut key = Vec::new();
    for _ in 0..length {
        let byte = items.u8()?;
        if !matches!(byte, b'A'..=b'Z' | b'a'..=b'z' | b'0'..=b'9') {
            return Err(10);
        }
        key.push(byte);
    }
    Ok(key)
}

fn read_piece(items: &mut Items) -> Result<Piece, u8> {
    let ring_count = within(items.u8()?, 1, 9, 9)?;
    let mut rings = Vec::new();
    for _ in 0..ring_count {
        let vertex_count = within(items.u16()?, 0, 256, 9)?;
        let mut ring = Vec::new();
        for _ in 0..vertex_count {
            ring.push([items.place(13)?, items.place(13)?]);
        }
        rings.push(ring);
    }
    Ok(rings)
}

fn within<T: PartialOrd>(value: T, least: T, most: T, refusal: u8) -> Result<T, u8> {
    if value < least || value > most {
        return Err(refusal);
    }
    Ok(value)
}

struct Items<'a> {
    bytes: &'a [u8],
    at: usize,
}

impl Items<'_> {
    /// The next item, whole, or refusal 6.
    fn take<const N: usize>(&mut self) -> Result<[u8; N], u8> {
        let item = self.bytes.get(self.at..self.at + N).ok_or(6)?;
        self.at += N;
        Ok(item.try_into().expect("an item has its length"))
    }

    fn u8(&mut self) -> Result<u8, u8> {
        self.take().map(u8::from_be_bytes)
    }

    fn u16(&mut self) -> Result<u16, u8> {
        self.take().map(u16::from_be_bytes)
    }

    fn u32(&mut self) -> Result<u32, u8> {
        self.take().map(u32::from_be_bytes)
    }

    fn u64(&mut self) -> Result<u64, u8> {
        self.take().map(u64::from_be_bytes)
    }

    fn place(&mut self, refusal: u8) -> Result<i32, u8> {
        let number = self.take().map(i32::from_be_bytes)?;
        within(i64::from(number), -FARTHEST, FARTHEST, refusal)?;
        Ok(number)
    }
}
