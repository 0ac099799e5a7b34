//! A star as a zone of one piece, for the Rust and for the port.
use crate::{Bits, star};
use oracle::judge;
use oracle::plotting::glyphs::discs::layers::Packing;
use oracle::plotting::regions::RegionPiece;
use probes::Piece;

pub struct Zone {
    pub piece: RegionPiece,
    sizes: [u64; 1],
    points: Vec<[f64; 2]>,
}

impl Zone {
    pub fn star(edges: usize, bits: &mut Bits) -> Zone {
        let rings = vec![star(edges, bits)];
        let points = rings.iter().flatten().map(|vertex| vertex.map(judge::units)).collect();
        Zone { piece: judge::piece_of(&rings), sizes: [edges as u64], points }
    }

    /// The piece as the port is lent it.
    pub fn lent(&self) -> Piece<'_> {
        Piece::new(&self.sizes, &self.points)
    }

    /// The port's spots, and the stream after them.
    pub fn pack(&self, packing: &Packing) -> (Vec<f64>, u64) {
        let mut packed = self.lent().pack(packing);
        packed.buffer.truncate(2 * packed.placed as usize);
        (packed.buffer, packed.state)
    }
}
