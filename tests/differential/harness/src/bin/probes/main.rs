//! The inner layers of the port, one by one, compared with the source's.
//! The C interface is `probes.h`.

mod packers;
mod places;

use std::process::ExitCode;

use harness::comparison::{self, Comparison};
use harness::layer_inputs::PieceInput;
use probes::Piece;

fn main() -> ExitCode {
    let comparisons: [Comparison; 12] = [
        ("signed-clearance", places::signed_clearance),
        ("four-clearances", places::four_clearances),
        ("inside", places::inside),
        ("area", places::area),
        ("bounds", places::bounds),
        ("near", places::near),
        ("deepest-point", places::deepest_point),
        ("uniform", packers::uniform),
        ("rectangular", packers::rectangular),
        ("low-discrepancy", packers::low_discrepancy),
        ("random", packers::random),
        ("relaxation", packers::relaxation),
    ];
    comparison::run(&comparisons)
}

fn lent(input: &PieceInput) -> Piece<'_> {
    Piece::new(&input.ring_sizes, &input.points)
}
