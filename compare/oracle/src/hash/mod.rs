//! The part of hash/mod.rs that the two files below lean on.

pub mod component;
pub mod map;

/// Stands in for a query filter: every entity passes.
pub trait SpatialHashFilter: 'static {}

impl SpatialHashFilter for () {}
