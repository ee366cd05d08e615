//! What reports use of the crate indexmap, under its name: a map in the order of insertion.
#![forbid(unsafe_code)]

use std::borrow::Borrow;
use std::collections::HashMap;
use std::hash::{BuildHasher, Hash, RandomState};
use std::{fmt, mem, ops, slice, vec};

// From so many entries on places are looked up.
const SEARCHED: usize = 16;

/// A map in the order of insertion. A key that is there keeps its place and gets the new value. Two maps are equal where they have the
/// same keys with the same values, in any order, as indexmap has it.
///
/// ```
/// use kerzhoma::report::indexmap::IndexMap;
///
/// let mut map = IndexMap::from([("b", 1), ("a", 2)]);
/// assert_eq!(map.insert("b", 3), Some(1));
/// assert_eq!(map.get("a"), Some(&2));
/// assert_eq!(map.iter().collect::<Vec<_>>(), [(&"b", &3), (&"a", &2)]);
/// ```
#[derive(Clone)]
pub struct IndexMap<K, V> {
    entries: Vec<(K, V)>,
    places: Option<Box<Places>>,
}

// The places of the keys with each hash.
#[derive(Clone, Default)]
struct Places {
    state: RandomState,
    of: HashMap<u64, Vec<usize>>,
}

impl Places {
    fn add<Q: Hash + ?Sized>(&mut self, key: &Q, place: usize) {
        self.of.entry(self.state.hash_one(key)).or_default().push(place);
    }
}

impl<K, V> IndexMap<K, V> {
    /// An empty map.
    pub const fn new() -> Self {
        IndexMap { entries: Vec::new(), places: None }
    }

    /// An empty map with room for so many entries.
    pub fn with_capacity(n: usize) -> Self {
        IndexMap { entries: Vec::with_capacity(n), places: None }
    }

    /// How many entries there are.
    pub fn len(&self) -> usize {
        self.entries.len()
    }

    /// Whether there are none.
    pub fn is_empty(&self) -> bool {
        self.entries.is_empty()
    }

    /// Removes all entries.
    pub fn clear(&mut self) {
        self.entries.clear();
        self.places = None;
    }

    /// Keys and values, in order.
    pub fn iter(&self) -> Iter<'_, K, V> {
        Iter(self.entries.iter())
    }

    /// Keys and values, in order; values can be changed.
    pub fn iter_mut(&mut self) -> impl Iterator<Item = (&K, &mut V)> {
        self.entries.iter_mut().map(|(k, v)| (&*k, v))
    }

    /// The keys, in order.
    pub fn keys(&self) -> impl Iterator<Item = &K> {
        self.entries.iter().map(|e| &e.0)
    }

    /// The values, in order.
    pub fn values(&self) -> impl Iterator<Item = &V> {
        self.entries.iter().map(|e| &e.1)
    }

    /// The values, in order, to be changed.
    pub fn values_mut(&mut self) -> impl Iterator<Item = &mut V> {
        self.entries.iter_mut().map(|e| &mut e.1)
    }

    /// The entry at a place.
    pub fn get_index(&self, place: usize) -> Option<(&K, &V)> {
        self.entries.get(place).map(|(k, v)| (k, v))
    }

    /// The first entry.
    pub fn first(&self) -> Option<(&K, &V)> {
        self.get_index(0)
    }

    /// The last entry.
    pub fn last(&self) -> Option<(&K, &V)> {
        self.get_index(self.len().checked_sub(1)?)
    }
}

impl<K: Hash + Eq, V> IndexMap<K, V> {
    /// The place of a key.
    pub fn get_index_of<Q: Hash + Eq + ?Sized>(&self, key: &Q) -> Option<usize>
    where
        K: Borrow<Q>,
    {
        match &self.places {
            None => self.entries.iter().position(|e| e.0.borrow() == key),
            Some(places) => {
                let same = places.of.get(&places.state.hash_one(key))?;
                same.iter().copied().find(|i| self.entries[*i].0.borrow() == key)
            }
        }
    }

    /// Sets the value of a key: the one that it had, if it was there.
    pub fn insert(&mut self, key: K, value: V) -> Option<V> {
        if let Some(i) = self.get_index_of(&key) {
            return Some(mem::replace(&mut self.entries[i].1, value));
        }
        if let Some(places) = &mut self.places {
            places.add(&key, self.entries.len());
        }
        self.entries.push((key, value));
        if self.places.is_none() && self.entries.len() > SEARCHED {
            self.look_up();
        }
        None
    }

    fn look_up(&mut self) {
        self.places = None;
        if self.entries.len() > SEARCHED {
            let mut places = Box::<Places>::default();
            for (i, (key, _)) in self.entries.iter().enumerate() {
                places.add(key, i);
            }
            self.places = Some(places);
        }
    }

    /// The value of a key.
    pub fn get<Q: Hash + Eq + ?Sized>(&self, key: &Q) -> Option<&V>
    where
        K: Borrow<Q>,
    {
        self.get_index_of(key).map(|i| &self.entries[i].1)
    }

    /// The value of a key, to be changed.
    pub fn get_mut<Q: Hash + Eq + ?Sized>(&mut self, key: &Q) -> Option<&mut V>
    where
        K: Borrow<Q>,
    {
        self.get_index_of(key).map(|i| &mut self.entries[i].1)
    }

    /// Whether a key is there.
    pub fn contains_key<Q: Hash + Eq + ?Sized>(&self, key: &Q) -> bool
    where
        K: Borrow<Q>,
    {
        self.get_index_of(key).is_some()
    }

    /// Removes a key; those behind it move up.
    pub fn shift_remove<Q: Hash + Eq + ?Sized>(&mut self, key: &Q) -> Option<V>
    where
        K: Borrow<Q>,
    {
        let (_, value) = self.entries.remove(self.get_index_of(key)?);
        self.look_up();
        Some(value)
    }

    /// Removes a key; the last one takes its place.
    pub fn swap_remove<Q: Hash + Eq + ?Sized>(&mut self, key: &Q) -> Option<V>
    where
        K: Borrow<Q>,
    {
        let (_, value) = self.entries.swap_remove(self.get_index_of(key)?);
        self.look_up();
        Some(value)
    }

    /// Keeps the entries that the function says, in order.
    pub fn retain(&mut self, mut keep: impl FnMut(&K, &mut V) -> bool) {
        self.entries.retain_mut(|(k, v)| keep(k, v));
        self.look_up();
    }
}

impl<K, V> Default for IndexMap<K, V> {
    fn default() -> Self {
        Self::new()
    }
}

impl<K: Hash + Eq, V: PartialEq> PartialEq for IndexMap<K, V> {
    fn eq(&self, other: &Self) -> bool {
        self.len() == other.len() && self.iter().all(|(k, v)| other.get(k) == Some(v))
    }
}

impl<K: Hash + Eq, V: Eq> Eq for IndexMap<K, V> {}

impl<K: fmt::Debug, V: fmt::Debug> fmt::Debug for IndexMap<K, V> {
    fn fmt(&self, f: &mut fmt::Formatter<'_>) -> fmt::Result {
        f.debug_map().entries(self.iter()).finish()
    }
}

impl<K: Hash + Eq, V> Extend<(K, V)> for IndexMap<K, V> {
    fn extend<I: IntoIterator<Item = (K, V)>>(&mut self, entries: I) {
        for (key, value) in entries {
            self.insert(key, value);
        }
    }
}

impl<K: Hash + Eq, V> FromIterator<(K, V)> for IndexMap<K, V> {
    fn from_iter<I: IntoIterator<Item = (K, V)>>(entries: I) -> Self {
        let mut map = IndexMap::new();
        map.extend(entries);
        map
    }
}

impl<K: Hash + Eq, V, const N: usize> From<[(K, V); N]> for IndexMap<K, V> {
    fn from(entries: [(K, V); N]) -> Self {
        entries.into_iter().collect()
    }
}

impl<K: Hash + Eq + Borrow<Q>, V, Q: Hash + Eq + ?Sized> ops::Index<&Q> for IndexMap<K, V> {
    type Output = V;

    /// # Panics
    ///
    /// Where the key isn't there.
    fn index(&self, key: &Q) -> &V {
        self.get(key).expect("the key is in the map")
    }
}

/// Keys and values of a map, in order.
#[derive(Clone, Debug)]
pub struct Iter<'a, K, V>(slice::Iter<'a, (K, V)>);

impl<'a, K, V> Iterator for Iter<'a, K, V> {
    type Item = (&'a K, &'a V);

    fn next(&mut self) -> Option<(&'a K, &'a V)> {
        self.0.next().map(|(k, v)| (k, v))
    }

    fn size_hint(&self) -> (usize, Option<usize>) {
        self.0.size_hint()
    }
}

impl<K, V> ExactSizeIterator for Iter<'_, K, V> {}

impl<K, V> DoubleEndedIterator for Iter<'_, K, V> {
    fn next_back(&mut self) -> Option<Self::Item> {
        self.0.next_back().map(|(k, v)| (k, v))
    }
}

impl<'a, K, V> IntoIterator for &'a IndexMap<K, V> {
    type Item = (&'a K, &'a V);
    type IntoIter = Iter<'a, K, V>;

    fn into_iter(self) -> Iter<'a, K, V> {
        self.iter()
    }
}

impl<K, V> IntoIterator for IndexMap<K, V> {
    type Item = (K, V);
    type IntoIter = vec::IntoIter<(K, V)>;

    fn into_iter(self) -> Self::IntoIter {
        self.entries.into_iter()
    }
}
