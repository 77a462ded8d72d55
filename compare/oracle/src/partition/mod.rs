//! The part of partition/mod.rs that the two files below lean on.

use core::hash::Hash;

pub mod map;
mod private;

pub use private::Partition;

/// Uniquely identifies a [`Partition`] in the [`PartitionLookup`](map::PartitionLookup) resource.
#[derive(Debug, Clone, Copy, PartialEq, Eq, PartialOrd, Ord)]
pub struct PartitionId(u64);

impl PartitionId {
    /// The inner partition id.
    pub fn id(&self) -> u64 {
        self.0
    }
}

impl Hash for PartitionId {
    #[inline]
    fn hash<H: core::hash::Hasher>(&self, state: &mut H) {
        state.write_u64(self.0);
    }
}
