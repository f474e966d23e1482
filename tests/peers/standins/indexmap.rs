//! A stand-in for indexmap: entries with their hashes in one vector, in order, and a table of their numbers, with linear
//! probing, of which at most three quarters are taken.
use std::hash::{BuildHasher, Hash};

/// A free place of the table.
const FREE: u32 = u32::MAX;

#[derive(Clone, Debug)]
struct Bucket<K, V> {
    hash: u64,
    key: K,
    value: V,
}

#[derive(Clone)]
pub struct IndexMap<K, V, S> {
    entries: Vec<Bucket<K, V>>,
    /// The number of an entry, or `FREE`. The length is 0 or a power of two.
    table: Vec<u32>,
    hasher: S,
}

impl<K: std::fmt::Debug, V: std::fmt::Debug, S> std::fmt::Debug for IndexMap<K, V, S> {
    fn fmt(&self, f: &mut std::fmt::Formatter<'_>) -> std::fmt::Result {
        self.entries.fmt(f)
    }
}

impl<K, V, S: Default> Default for IndexMap<K, V, S> {
    fn default() -> Self {
        Self { entries: Vec::new(), table: Vec::new(), hasher: S::default() }
    }
}

impl<K, V, S> IndexMap<K, V, S> {
    pub fn len(&self) -> usize {
        self.entries.len()
    }

    pub fn is_empty(&self) -> bool {
        self.entries.is_empty()
    }

    pub fn clear(&mut self) {
        self.entries.clear();
        self.table.fill(FREE);
    }

    pub fn iter(&self) -> impl Iterator<Item = (&K, &V)> {
        self.entries.iter().map(|it| (&it.key, &it.value))
    }

    pub fn drain(&mut self) -> impl '_ + Iterator<Item = (K, V)> {
        self.table.fill(FREE);
        self.entries.drain(..).map(|it| (it.key, it.value))
    }

    /// Returns the place in the table at which the search for a hash begins.
    #[inline]
    fn start(&self, hash: u64) -> usize {
        (hash >> 32) as usize & (self.table.len() - 1)
    }

    /// Appends an entry whose key is new.
    fn push(&mut self, hash: u64, key: K, value: V) {
        if (self.entries.len() + 1) * 4 > self.table.len() * 3 {
            self.grow();
        }
        let number = self.entries.len() as u32;
        self.put(hash, number);
        self.entries.push(Bucket { hash, key, value });
    }

    fn put(&mut self, hash: u64, number: u32) {
        let mut place = self.start(hash);
        while self.table[place] != FREE {
            place = (place + 1) & (self.table.len() - 1);
        }
        self.table[place] = number;
    }

    #[cold]
    fn grow(&mut self) {
        let length = (self.table.len() * 2).max(4);
        self.fill(length);
    }

    /// Writes the table anew, with this length.
    fn fill(&mut self, length: usize) {
        self.table.clear();
        self.table.resize(length, FREE);
        for number in 0..self.entries.len() {
            self.put(self.entries[number].hash, number as u32);
        }
    }
}

impl<K: Eq + Hash, V, S: BuildHasher> IndexMap<K, V, S> {
    #[inline]
    fn index_of(&self, hash: u64, key: &K) -> Option<usize> {
        if self.table.is_empty() {
            return None;
        }
        let mut place = self.start(hash);
        loop {
            let number = self.table[place];
            if number == FREE {
                return None;
            }
            let entry = &self.entries[number as usize];
            if entry.hash == hash && entry.key == *key {
                return Some(number as usize);
            }
            place = (place + 1) & (self.table.len() - 1);
        }
    }

    pub fn get(&self, key: &K) -> Option<&V> {
        if self.entries.is_empty() {
            return None;
        }
        let found = self.index_of(self.hasher.hash_one(key), key)?;
        Some(&self.entries[found].value)
    }

    pub fn insert(&mut self, key: K, value: V) -> Option<V> {
        let hash = self.hasher.hash_one(&key);
        match self.index_of(hash, &key) {
            Some(found) => Some(std::mem::replace(&mut self.entries[found].value, value)),
            None => {
                self.push(hash, key, value);
                None
            }
        }
    }

    pub fn entry(&mut self, key: K) -> map::Entry<'_, K, V, S> {
        let hash = self.hasher.hash_one(&key);
        match self.index_of(hash, &key) {
            Some(at) => map::Entry::Occupied(map::OccupiedEntry(&mut self.entries[at].value)),
            None => map::Entry::Vacant(map::VacantEntry { map: self, hash, key }),
        }
    }
}

pub mod map {
    use super::IndexMap;

    pub enum Entry<'a, K, V, S> {
        Occupied(OccupiedEntry<'a, V>),
        Vacant(VacantEntry<'a, K, V, S>),
    }

    pub struct OccupiedEntry<'a, V>(pub(crate) &'a mut V);

    impl<V> OccupiedEntry<'_, V> {
        pub fn get(&self) -> &V {
            self.0
        }
    }

    pub struct VacantEntry<'a, K, V, S> {
        pub(crate) map: &'a mut IndexMap<K, V, S>,
        pub(crate) hash: u64,
        pub(crate) key: K,
    }

    impl<K, V, S> VacantEntry<'_, K, V, S> {
        pub fn insert(self, value: V) {
            self.map.push(self.hash, self.key, value);
        }
    }

    pub struct IntoIter<K, V>(pub(crate) std::vec::IntoIter<super::Bucket<K, V>>);

    impl<K, V> Iterator for IntoIter<K, V> {
        type Item = (K, V);

        fn next(&mut self) -> Option<(K, V)> {
            self.0.next().map(|it| (it.key, it.value))
        }
    }
}

impl<K, V, S> IntoIterator for IndexMap<K, V, S> {
    type Item = (K, V);
    type IntoIter = map::IntoIter<K, V>;

    fn into_iter(self) -> map::IntoIter<K, V> {
        map::IntoIter(self.entries.into_iter())
    }
}

pub mod set {
    pub struct Drain<'a, T>(pub(crate) std::vec::Drain<'a, super::Bucket<T, ()>>);

    impl<T> Iterator for Drain<'_, T> {
        type Item = T;

        fn next(&mut self) -> Option<T> {
            self.0.next().map(|it| it.key)
        }
    }
}

#[derive(Clone)]
pub struct IndexSet<T, S> {
    map: IndexMap<T, (), S>,
}

impl<T, S: Default> Default for IndexSet<T, S> {
    fn default() -> Self {
        Self { map: IndexMap::default() }
    }
}

impl<T, S> IndexSet<T, S> {
    pub fn len(&self) -> usize {
        self.map.len()
    }

    pub fn is_empty(&self) -> bool {
        self.map.is_empty()
    }

    pub fn clear(&mut self) {
        self.map.clear();
    }

    pub fn iter(&self) -> impl DoubleEndedIterator<Item = &T> + ExactSizeIterator {
        self.map.entries.iter().map(|it| &it.key)
    }

    pub fn get_index(&self, index: usize) -> Option<&T> {
        self.map.entries.get(index).map(|it| &it.key)
    }

    pub fn drain(&mut self, range: std::ops::RangeFull) -> set::Drain<'_, T> {
        self.map.table.fill(FREE);
        set::Drain(self.map.entries.drain(range))
    }

    pub fn swap_remove_index(&mut self, index: usize) -> Option<T> {
        if index >= self.len() {
            return None;
        }
        let removed = self.map.entries.swap_remove(index).key;
        self.map.fill(self.map.table.len());
        Some(removed)
    }
}

impl<T: Eq + Hash, S: BuildHasher> IndexSet<T, S> {
    pub fn get_index_of(&self, key: &T) -> Option<usize> {
        self.map.index_of(self.map.hasher.hash_one(key), key)
    }

    pub fn insert_full(&mut self, key: T) -> (usize, bool) {
        let hash = self.map.hasher.hash_one(&key);
        match self.map.index_of(hash, &key) {
            Some(index) => (index, false),
            None => {
                self.map.push(hash, key, ());
                (self.len() - 1, true)
            }
        }
    }
}

impl<T, S> std::ops::Index<usize> for IndexSet<T, S> {
    type Output = T;

    fn index(&self, index: usize) -> &T {
        &self.map.entries[index].key
    }
}
