pub mod job;
pub mod judge;
pub mod sheet;
pub mod stand_ins;

pub mod geometry {
    pub mod primitives {
        mod point;
        pub use point::Point;
    }
    pub mod shapes {
        mod polygon;
        mod rectangle;
        pub use polygon::Polygon;
        pub use rectangle::Rectangle;
    }
}

pub mod spec {
    mod combination;
    pub use combination::Combination;
}

pub mod plotting {
    pub mod glyphs;
    pub mod regions;
}
