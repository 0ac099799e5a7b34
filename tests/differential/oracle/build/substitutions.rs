//! Every change to the source's text. `docs/ORACLE.md` prints this list.

pub struct Substitution {
    pub file: &'static str,
    pub find: &'static str,
    pub replace: &'static str,
    pub times: usize,
    pub reason: &'static str,
}

const fn change(
    file: &'static str,
    find: &'static str,
    replace: &'static str,
    times: usize,
    reason: &'static str,
) -> Substitution {
    Substitution { file, find, replace, times, reason }
}

const DISCS: &str = "plotting/glyphs/discs.rs";
const RELAX: &str = "plotting/glyphs/relax.rs";
const GLYPHS: &str = "plotting/glyphs.rs";
const REGIONS: &str = "plotting/regions.rs";

const MAX: &str = "max: the other when one is NaN, else the second only if strictly larger";
const MIN: &str = "min: the other when one is NaN, else the second only if strictly smaller";
const POWI: &str = "powi(2): v × v";
const HYPOT: &str = "hypot: root of a × a + b × b";
const IMPORT: &str = "brings the stand-ins into scope";

pub const SUBSTITUTIONS: &[Substitution] = &[
    change(
        DISCS,
        "use rand::rngs::StdRng;\nuse rand::{RngExt, SeedableRng};\n",
        "use crate::stand_ins::{Float as _, StdRng};\n",
        1,
        "stream: SplitMix64 under the name of the source's generator (crate rand is not at hand)",
    ),
    change(DISCS, ".powi(2)", ".square()", 14, POWI),
    change(DISCS, ".max(", ".larger(", 8, MAX),
    change(DISCS, ".min(", ".smaller(", 2, MIN),
    change(
        DISCS,
        "    let feasible = |r: f64| {\n",
        "    let feasible = |r: f64| {\n        crate::stand_ins::trial(!obstacles.is_empty());\n",
        1,
        "counts the trials, when each begins; changes no result",
    ),
    change(
        RELAX,
        "use super::clear_of_obstacles;\n",
        "use super::clear_of_obstacles;\nuse crate::stand_ins::Float as _;\n",
        1,
        IMPORT,
    ),
    change(RELAX, ".hypot(", ".root_of_squares(", 2, HYPOT),
    change(RELAX, ".powi(2)", ".square()", 2, POWI),
    change(RELAX, ".min(", ".smaller(", 1, MIN),
    change(
        GLYPHS,
        "use crate::plotting::regions::RegionPiece;\n",
        "use crate::plotting::regions::RegionPiece;\nuse crate::stand_ins::Float as _;\n",
        1,
        IMPORT,
    ),
    change(
        GLYPHS,
        "mod boxes;\nmod discs;\nmod relax;\nmod scan;\n",
        "pub mod discs;\nmod relax;\n",
        1,
        "boxes.rs is not at hand, scan.rs is not used; discs is opened to the harness",
    ),
    change(
        GLYPHS,
        "pub use boxes::{GlyphBoxOptions, GlyphBoxPlacements, place_glyph_boxes};\n",
        "",
        1,
        "boxes.rs is not at hand",
    ),
    change(
        GLYPHS,
        "/// Fixtures shared by the packers' test modules. Private, so descendants of\n/// this module reach it as `super::test_utils` and nothing else can.\n",
        "",
        1,
        "the comment of the test module, which the published text leaves out",
    ),
    change(GLYPHS, ".max(", ".larger(", 7, MAX),
    change(GLYPHS, ".min(", ".smaller(", 2, MIN),
    change(GLYPHS, ".hypot(", ".root_of_squares(", 2, HYPOT),
    change(
        REGIONS,
        "(outer_area - hole_area).max(0.0)",
        "crate::stand_ins::not_below_zero(outer_area - hole_area)",
        1,
        "area of a piece: 0 where the difference comes out below 0",
    ),
    change(REGIONS, ".powi(2)", ".square()", 2, POWI),
    change(REGIONS, ".max(", ".larger(", 2, MAX),
    change(REGIONS, ".min(", ".smaller(", 3, MIN),
    change(
        REGIONS,
        "let mut queue: std::collections::BinaryHeap<Cell> = std::collections::BinaryHeap::new();",
        "let mut queue: crate::stand_ins::WaitingCells<Cell> = crate::stand_ins::WaitingCells::new();",
        1,
        "heap: equal bounds leave in order of entry; the waiting cells are counted for row 15",
    ),
];
