//! HashMap over a sorted map. The order in which a hash map is walked is open;
//! here it is a switch, ascending or descending by key.

use std::collections::BTreeMap;
use std::sync::atomic::{AtomicBool, Ordering};

static DESCENDING: AtomicBool = AtomicBool::new(false);

pub fn set_descending(on: bool) {
    DESCENDING.store(on, Ordering::Relaxed);
}

fn in_order<T>(mut all: Vec<T>) -> std::vec::IntoIter<T> {
    if DESCENDING.load(Ordering::Relaxed) {
        all.reverse();
    }
    all.into_iter()
}

pub struct HashMap<K, V>(BTreeMap<K, V>);

impl<K: Ord, V> Default for HashMap<K, V> {
    fn default() -> Self {
        HashMap(BTreeMap::new())
    }
}

impl<K: Ord, V> HashMap<K, V> {
    pub fn new() -> Self {
        Self::default()
    }

    pub fn is_empty(&self) -> bool {
        self.0.is_empty()
    }

    pub fn get(&self, k: &K) -> Option<&V> {
        self.0.get(k)
    }

    pub fn get_mut(&mut self, k: &K) -> Option<&mut V> {
        self.0.get_mut(k)
    }

    pub fn insert(&mut self, k: K, v: V) -> Option<V> {
        self.0.insert(k, v)
    }

    pub fn remove(&mut self, k: &K) -> Option<V> {
        self.0.remove(k)
    }

    pub fn entry(&mut self, k: K) -> std::collections::btree_map::Entry<'_, K, V> {
        self.0.entry(k)
    }

    pub fn values(&self) -> std::vec::IntoIter<&V> {
        in_order(self.0.values().collect())
    }

    pub fn iter(&self) -> std::vec::IntoIter<(&K, &V)> {
        in_order(self.0.iter().collect())
    }

    pub fn drain(&mut self) -> std::vec::IntoIter<(K, V)> {
        std::mem::take(self).into_iter()
    }
}

impl<K: Ord, V> IntoIterator for HashMap<K, V> {
    type Item = (K, V);
    type IntoIter = std::vec::IntoIter<(K, V)>;

    fn into_iter(self) -> Self::IntoIter {
        in_order(self.0.into_iter().collect())
    }
}
