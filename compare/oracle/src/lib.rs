//! A test copy of big_space's cell lookup and partition modules. ../CHANGES.md lists every change to its files; `standins` has what
//! they lean on.
#![allow(dead_code, unused_mut, clippy::all)]

pub mod grid {
    pub mod cell;
}
pub mod hash;
pub mod partition;
pub mod standins;

/// The 32-bit grid, as the port has it.
pub mod precision {
    pub type GridPrecision = i32;
}

/// Stands in for the timing resource, which no caller passes.
pub mod timing {
    #[derive(Default)]
    pub struct GridHashStats {
        pub update_partition: std::time::Duration,
    }
}

pub mod prelude {
    pub use crate::grid::cell::CellCoord;
    pub use crate::hash::component::{CellHash, CellId};
    pub use crate::hash::map::CellLookup;
    pub use crate::precision::GridPrecision;
}
