//! Stand-in for truck_base: what the given files of truck-topology ask of it.

/// Identity by address.
pub mod id {
    pub struct ID<T>(*const T);

    impl<T> ID<T> {
        pub fn new(pointer: *const T) -> Self { ID(pointer) }
    }
    impl<T> Clone for ID<T> {
        fn clone(&self) -> Self { *self }
    }
    impl<T> Copy for ID<T> {}
    impl<T> PartialEq for ID<T> {
        fn eq(&self, other: &Self) -> bool { std::ptr::eq(self.0, other.0) }
    }
    impl<T> Eq for ID<T> {}
    impl<T> std::hash::Hash for ID<T> {
        fn hash<H: std::hash::Hasher>(&self, state: &mut H) { self.0.hash(state) }
    }
    impl<T> std::fmt::Debug for ID<T> {
        fn fmt(&self, f: &mut std::fmt::Formatter<'_>) -> std::fmt::Result { self.0.fmt(f) }
    }
}

pub mod tolerance {
    /// Document 01's value.
    pub const TOLERANCE: f64 = 0.000001;

    pub trait Tolerance {
        fn near(&self, other: &Self) -> bool;
    }
}

/// A hash map that makes the value of a new key.
pub mod entry_map {
    use rustc_hash::FxHashMap;
    use std::{hash::Hash, marker::PhantomData};

    pub struct FxEntryMap<K, V, KF, VF, P> {
        map: FxHashMap<K, V>,
        key: KF,
        value: VF,
        asked: PhantomData<P>,
    }

    impl<K, V, KF, VF, P> FxEntryMap<K, V, KF, VF, P>
    where
        K: Eq + Hash,
        P: Copy,
        KF: FnMut(P) -> K,
        VF: FnMut(P) -> V,
    {
        pub fn new(key: KF, value: VF) -> Self {
            FxEntryMap { map: FxHashMap::default(), key, value, asked: PhantomData }
        }
        pub fn entry_or_insert(&mut self, asked: P) -> &mut V {
            let value = &mut self.value;
            self.map.entry((self.key)(asked)).or_insert_with(|| value(asked))
        }
    }

    impl<K, V, KF, VF, P> IntoIterator for FxEntryMap<K, V, KF, VF, P> {
        type Item = (K, V);
        type IntoIter = std::collections::hash_map::IntoIter<K, V>;
        fn into_iter(self) -> Self::IntoIter { self.map.into_iter() }
    }

    impl<K, V, KF, VF, P> From<FxEntryMap<K, V, KF, VF, P>> for FxHashMap<K, V> {
        fn from(entries: FxEntryMap<K, V, KF, VF, P>) -> Self { entries.map }
    }
}
