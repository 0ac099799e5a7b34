//! The sheet writer, written from the rules of the format alone.

pub struct ZoneSpots {
    pub key: Vec<u8>,
    pub unplaced: u16,
    pub spots: Vec<[f64; 2]>,
}

pub fn write(radius: f64, zones: &[ZoneSpots]) -> Vec<u8> {
    let mut body = vec![1];
    body.extend(radius.to_bits().to_be_bytes());
    body.extend((zones.len() as u16).to_be_bytes());
    for zone in zones {
        body.push(zone.key.len() as u8);
        body.extend(&zone.key);
        body.extend((zone.spots.len() as u16).to_be_bytes());
        body.extend(zone.unplaced.to_be_bytes());
        for coordinate in zone.spots.iter().flatten() {
            body.extend(coordinate.to_bits().to_be_bytes());
        }
    }
    let mut sheet = (body.len() as u32).to_be_bytes().to_vec();
    sheet.extend(body);
    sheet
}

/// The buffer that row 14 asks for, over (key length, count) of each zone
/// left in.
pub fn buffer_for(zones: impl Iterator<Item = (usize, u16)>) -> usize {
    15 + zones.map(|(key_length, count)| 5 + key_length + 16 * usize::from(count)).sum::<usize>()
}
