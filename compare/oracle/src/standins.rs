//! Stand-ins for what the copied files take from Bevy: entities, hash maps and sets, integer vectors, borrowed resources, a
//! parallel map that is a plain loop, and a log span that does nothing.

pub mod bevy_ecs {
    pub mod entity {
        use crate::standins::bevy_platform::collections::{HashMap, HashSet};
        use crate::standins::bevy_platform::hash::PassHash;

        /// An entity is its number.
        #[derive(Debug, Clone, Copy, PartialEq, Eq, PartialOrd, Ord)]
        pub struct Entity(pub u64);

        impl Entity {
            pub fn to_bits(self) -> u64 {
                self.0
            }
        }

        impl core::hash::Hash for Entity {
            fn hash<H: core::hash::Hasher>(&self, state: &mut H) {
                state.write_u64(self.0.wrapping_mul(0x9E37_79B9_7F4A_7C15));
            }
        }

        pub type EntityHashSet = HashSet<Entity, PassHash>;
        pub type EntityHashMap<T> = HashMap<Entity, T, PassHash>;
    }

    pub mod prelude {
        pub use super::entity::Entity;
        pub type Res<'a, T> = &'a T;
        pub type ResMut<'a, T> = &'a mut T;
        pub type Local<'a, T> = &'a mut T;
    }
}

pub mod bevy_math {
    use core::ops::{Add, Div, Rem};

    /// Three integers, with the operations that `adjacent` uses.
    #[derive(Debug, Clone, Copy, PartialEq, Eq)]
    pub struct IVec3 {
        pub x: i32,
        pub y: i32,
        pub z: i32,
    }

    impl IVec3 {
        pub const ZERO: Self = IVec3 { x: 0, y: 0, z: 0 };

        pub fn new(x: i32, y: i32, z: i32) -> Self {
            IVec3 { x, y, z }
        }
    }

    impl Div<IVec3> for i32 {
        type Output = IVec3;
        fn div(self, v: IVec3) -> IVec3 {
            IVec3::new(self / v.x, self / v.y, self / v.z)
        }
    }

    impl Rem<i32> for IVec3 {
        type Output = IVec3;
        fn rem(self, n: i32) -> IVec3 {
            IVec3::new(self.x % n, self.y % n, self.z % n)
        }
    }

    impl Add<IVec3> for i32 {
        type Output = IVec3;
        fn add(self, v: IVec3) -> IVec3 {
            IVec3::new(self + v.x, self + v.y, self + v.z)
        }
    }
}

pub mod bevy_platform {
    pub mod time {
        pub use std::time::Instant;
    }

    pub mod hash {
        use core::hash::{BuildHasher, Hasher};
        use core::sync::atomic::{AtomicU64, Ordering};

        /// Varies the order in which sets and maps are walked.
        pub static SEED: AtomicU64 = AtomicU64::new(0);

        /// The hash is the number that was written.
        #[derive(Debug, Clone, Copy, Default)]
        pub struct PassHash;

        #[derive(Default)]
        pub struct PassHasher(u64);

        impl Hasher for PassHasher {
            fn write(&mut self, bytes: &[u8]) {
                for b in bytes {
                    self.0 = self.0.rotate_left(8) ^ u64::from(*b);
                }
            }
            fn write_u64(&mut self, n: u64) {
                self.0 = n;
            }
            fn finish(&self) -> u64 {
                self.0
            }
        }

        impl BuildHasher for PassHash {
            type Hasher = PassHasher;
            fn build_hasher(&self) -> PassHasher {
                PassHasher::default()
            }
        }

        /// A hasher that mixes all that is written with the seed.
        #[derive(Debug, Clone, Copy, Default)]
        pub struct FixedHasher;

        pub struct MixHasher(u64);

        impl Hasher for MixHasher {
            fn write(&mut self, bytes: &[u8]) {
                for b in bytes {
                    self.write_u64(u64::from(*b));
                }
            }
            fn write_u64(&mut self, n: u64) {
                let mut z = (self.0 ^ n).wrapping_add(0x9E37_79B9_7F4A_7C15);
                z = (z ^ (z >> 30)).wrapping_mul(0xBF58_476D_1CE4_E5B9);
                z = (z ^ (z >> 27)).wrapping_mul(0x94D0_49BB_1331_11EB);
                self.0 = z ^ (z >> 31);
            }
            fn finish(&self) -> u64 {
                self.0
            }
        }

        impl BuildHasher for FixedHasher {
            type Hasher = MixHasher;
            fn build_hasher(&self) -> MixHasher {
                MixHasher(SEED.load(Ordering::Relaxed))
            }
        }
    }

    #[cfg(not(feature = "ordered"))]
    pub mod collections {
        pub use std::collections::{HashMap, HashSet};
    }

    /// Maps and sets with the hash tables' calls that walk in ascending order.
    #[cfg(feature = "ordered")]
    pub mod collections {
        use core::marker::PhantomData;
        use std::collections::{btree_map, BTreeMap, BTreeSet};

        #[derive(Debug, Clone)]
        pub struct HashMap<K, V, S = ()> {
            inner: BTreeMap<K, V>,
            hasher: PhantomData<S>,
        }

        impl<K, V, S> Default for HashMap<K, V, S> {
            fn default() -> Self {
                HashMap { inner: BTreeMap::new(), hasher: PhantomData }
            }
        }

        impl<K: Ord, V, S> HashMap<K, V, S> {
            pub fn get(&self, k: &K) -> Option<&V> {
                self.inner.get(k)
            }
            pub fn get_mut(&mut self, k: &K) -> Option<&mut V> {
                self.inner.get_mut(k)
            }
            pub fn contains_key(&self, k: &K) -> bool {
                self.inner.contains_key(k)
            }
            pub fn insert(&mut self, k: K, v: V) -> Option<V> {
                self.inner.insert(k, v)
            }
            pub fn remove(&mut self, k: &K) -> Option<V> {
                self.inner.remove(k)
            }
            pub fn iter(&self) -> btree_map::Iter<'_, K, V> {
                self.inner.iter()
            }
            pub fn entry(&mut self, k: K) -> btree_map::Entry<'_, K, V> {
                self.inner.entry(k)
            }
            pub fn len(&self) -> usize {
                self.inner.len()
            }
            pub fn drain(&mut self) -> btree_map::IntoIter<K, V> {
                core::mem::take(&mut self.inner).into_iter()
            }
        }

        #[derive(Debug, Clone)]
        pub struct HashSet<T, S = ()> {
            inner: BTreeSet<T>,
            hasher: PhantomData<S>,
        }

        impl<T, S> Default for HashSet<T, S> {
            fn default() -> Self {
                HashSet { inner: BTreeSet::new(), hasher: PhantomData }
            }
        }

        impl<T: Ord, S> HashSet<T, S> {
            pub fn insert(&mut self, t: T) -> bool {
                self.inner.insert(t)
            }
            pub fn remove(&mut self, t: &T) -> bool {
                self.inner.remove(t)
            }
            pub fn contains(&self, t: &T) -> bool {
                self.inner.contains(t)
            }
            pub fn iter(&self) -> std::collections::btree_set::Iter<'_, T> {
                self.inner.iter()
            }
            pub fn len(&self) -> usize {
                self.inner.len()
            }
            pub fn is_empty(&self) -> bool {
                self.inner.is_empty()
            }
            pub fn clear(&mut self) {
                self.inner.clear()
            }
            pub fn reserve(&mut self, _more: usize) {}
        }

        impl<T: Ord, S> Extend<T> for HashSet<T, S> {
            fn extend<I: IntoIterator<Item = T>>(&mut self, i: I) {
                self.inner.extend(i)
            }
        }

        impl<T: Ord, S> FromIterator<T> for HashSet<T, S> {
            fn from_iter<I: IntoIterator<Item = T>>(i: I) -> Self {
                HashSet { inner: i.into_iter().collect(), hasher: PhantomData }
            }
        }

        impl<T, S> IntoIterator for HashSet<T, S> {
            type Item = T;
            type IntoIter = std::collections::btree_set::IntoIter<T>;
            fn into_iter(self) -> Self::IntoIter {
                self.inner.into_iter()
            }
        }
    }
}

pub mod bevy_tasks {
    /// The task pool, which does nothing.
    pub struct ComputeTaskPool;

    impl ComputeTaskPool {
        pub fn get() -> Self {
            ComputeTaskPool
        }
    }

    /// The parallel map as one plain pass.
    pub trait ParallelSliceMut<T> {
        fn par_splat_map_mut<R>(&mut self, pool: ComputeTaskPool, most: Option<usize>, f: impl Fn(usize, &mut [T]) -> R) -> Vec<R>;
    }

    impl<T> ParallelSliceMut<T> for Vec<T> {
        fn par_splat_map_mut<R>(&mut self, _pool: ComputeTaskPool, _most: Option<usize>, f: impl Fn(usize, &mut [T]) -> R) -> Vec<R> {
            vec![f(0, self.as_mut_slice())]
        }
    }
}

pub mod bevy_log {
    pub struct Span;

    impl Span {
        pub fn entered(self) -> Self {
            self
        }
    }

    macro_rules! info_span {
        ($name:expr) => {
            $crate::standins::bevy_log::Span
        };
    }
    pub(crate) use info_span;
}

/// Cell order: grid, then z, then y, then x; used where sets walk in ascending order.
impl PartialOrd for crate::hash::component::CellId {
    fn partial_cmp(&self, other: &Self) -> Option<core::cmp::Ordering> {
        Some(self.cmp(other))
    }
}

impl Ord for crate::hash::component::CellId {
    fn cmp(&self, other: &Self) -> core::cmp::Ordering {
        let key = |c: &Self| (c.grid().0, c.coord().z, c.coord().y, c.coord().x);
        key(self).cmp(&key(other))
    }
}
