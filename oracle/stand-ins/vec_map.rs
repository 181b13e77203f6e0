//! Stand-in for the crate `vec_map`: a map from small numbers, walked in rising order of its keys.

use std::collections::{btree_map, BTreeMap};

#[derive(Clone, Debug)]
pub struct VecMap<V>(BTreeMap<usize, V>);

impl<V> Default for VecMap<V> {
    fn default() -> Self {
        VecMap(BTreeMap::new())
    }
}

impl<V> VecMap<V> {
    pub fn with_capacity(_capacity: usize) -> Self {
        VecMap::default()
    }

    pub fn get(&self, key: usize) -> Option<&V> {
        self.0.get(&key)
    }

    pub fn insert(&mut self, key: usize, value: V) -> Option<V> {
        self.0.insert(key, value)
    }

    pub fn remove(&mut self, key: usize) -> Option<V> {
        self.0.remove(&key)
    }
}

/// Walks a `VecMap`; unlike the tree's own walk it hands the key out by value, as the crate's users expect.
pub struct Iter<'a, V>(btree_map::Iter<'a, usize, V>);

impl<'a, V> Iterator for Iter<'a, V> {
    type Item = (usize, &'a V);

    fn next(&mut self) -> Option<Self::Item> {
        self.0.next().map(|(key, value)| (*key, value))
    }
}

impl<'a, V> IntoIterator for &'a VecMap<V> {
    type Item = (usize, &'a V);
    type IntoIter = Iter<'a, V>;

    fn into_iter(self) -> Iter<'a, V> {
        Iter(self.0.iter())
    }
}
