//! Which text of the source the oracle is built from.

/// Where the crate's files lie in the source folder.
pub const ROOT: &str = "crates/eunoia/src/";

pub struct SourceFile {
    pub path: &'static str,
    pub parts: Parts,
}

pub enum Parts {
    /// The whole file, and what is written after it.
    Whole { after: &'static str },
    /// Named items, under the given `use` lines.
    Items { uses: &'static str, items: &'static [Item] },
}

pub enum Item {
    /// An item at the left margin, named by the start of its first line.
    Top(&'static str),
    /// Some methods of an `impl` block, each named by the start of its line.
    Methods { of: &'static str, names: &'static [&'static str] },
}

pub const SOURCE_FILES: &[SourceFile] = &[
    SourceFile {
        path: "plotting/glyphs/discs.rs",
        parts: Parts::Whole { after: "\npub mod layers;\n" },
    },
    SourceFile { path: "plotting/glyphs/relax.rs", parts: Parts::Whole { after: "" } },
    SourceFile { path: "plotting/glyphs.rs", parts: Parts::Whole { after: "" } },
    SourceFile { path: "spec/combination.rs", parts: Parts::Whole { after: "" } },
    SourceFile {
        path: "plotting/regions.rs",
        parts: Parts::Items {
            uses: "use crate::geometry::primitives::Point;\n\
                   use crate::geometry::shapes::Polygon;\n\
                   use crate::spec::Combination;\n\
                   use crate::stand_ins::Float as _;\n\
                   use std::collections::HashMap;\n",
            items: &[
                Item::Top("pub struct RegionPiece {"),
                Item::Top("impl RegionPiece {"),
                Item::Top("pub struct RegionPolygons {"),
                Item::Methods {
                    of: "impl RegionPolygons {",
                    names: &["    pub fn from_map(", "    pub fn iter("],
                },
                Item::Top("pub(crate) fn point_in_polygon("),
                Item::Top("pub(crate) fn min_dist_to_rings("),
                Item::Top("pub(crate) fn signed_clearance("),
                Item::Top("pub(crate) fn poi_with_holes("),
            ],
        },
    },
    SourceFile {
        path: "geometry/shapes/polygon.rs",
        parts: Parts::Items {
            uses: "use crate::geometry::primitives::Point;\n",
            items: &[
                Item::Top("pub(crate) fn shoelace_area("),
                Item::Top("pub struct Polygon {"),
                Item::Methods {
                    of: "impl Polygon {",
                    names: &["    pub fn new(", "    pub fn vertices(", "    pub fn area("],
                },
            ],
        },
    },
    SourceFile {
        path: "geometry/shapes/rectangle.rs",
        parts: Parts::Items {
            uses: "use crate::geometry::primitives::Point;\n",
            items: &[
                Item::Top("pub struct Rectangle {"),
                Item::Methods {
                    of: "impl Rectangle {",
                    names: &[
                        "    pub fn new(",
                        "    pub fn center(",
                        "    pub fn width(",
                        "    pub fn height(",
                    ],
                },
            ],
        },
    },
    SourceFile {
        path: "geometry/primitives/point.rs",
        parts: Parts::Items {
            uses: "",
            items: &[
                Item::Top("pub struct Point {"),
                Item::Methods {
                    of: "impl Point {",
                    names: &["    pub fn new(", "    pub fn x(", "    pub fn y("],
                },
            ],
        },
    },
];

/// The oracle's own files, and where each stands among the source's.
pub const OWN_FILES: &[(&str, &str)] = &[
    ("root.rs", "root.rs"),
    ("job.rs", "job.rs"),
    ("judge.rs", "judge.rs"),
    ("sheet.rs", "sheet.rs"),
    ("stand_ins.rs", "stand_ins.rs"),
    ("layers.rs", "plotting/glyphs/discs/layers.rs"),
];
