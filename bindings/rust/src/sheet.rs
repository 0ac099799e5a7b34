//! A sheet's bytes, read. All numbers are big-endian.

/// The place of a mark's centre.
#[derive(Clone, Copy, Debug, PartialEq)]
pub struct Spot {
    pub x: f64,
    pub y: f64,
}

/// A zone that is left in, with a spot for each placed mark.
#[derive(Clone, Debug, PartialEq)]
pub struct Zone {
    pub key: String,
    pub spots: Vec<Spot>,
    pub unplaced: u16,
}

#[derive(Clone, Debug, PartialEq)]
pub struct Sheet {
    pub radius: f64,
    pub zones: Vec<Zone>,
}

impl Sheet {
    /// Length u32 of what follows, version 1, radius as its 64 bits, zone
    /// count u16, zones. `None` where the bytes are no sheet.
    pub fn read(bytes: &[u8]) -> Option<Sheet> {
        let mut rest = Rest(bytes);
        let length = u32::from_be_bytes(rest.take()?);
        if length as usize != bytes.len() - 4 || rest.take()? != [1] {
            return None;
        }
        let radius = rest.float()?;
        let count = rest.u16()?;
        let zones = (0..count).map(|_| rest.zone()).collect::<Option<_>>()?;
        rest.0.is_empty().then_some(Sheet { radius, zones })
    }
}

/// What is not read yet.
struct Rest<'a>(&'a [u8]);

impl Rest<'_> {
    fn take<const N: usize>(&mut self) -> Option<[u8; N]> {
        let (item, rest) = self.0.split_first_chunk()?;
        self.0 = rest;
        Some(*item)
    }

    fn u16(&mut self) -> Option<u16> {
        self.take().map(u16::from_be_bytes)
    }

    fn float(&mut self) -> Option<f64> {
        self.take().map(f64::from_be_bytes)
    }

    /// Key length u8, key, placed u16, unplaced u16, x and y of each spot.
    fn zone(&mut self) -> Option<Zone> {
        let [key_length] = self.take()?;
        let (key, rest) = self.0.split_at_checked(key_length.into())?;
        self.0 = rest;
        let key = String::from_utf8(key.to_vec()).ok()?;
        let placed = self.u16()?;
        let unplaced = self.u16()?;
        let spots = (0..placed).map(|_| Some(Spot { x: self.float()?, y: self.float()? }));
        let spots = spots.collect::<Option<_>>()?;
        Some(Zone { key, spots, unplaced })
    }
}
