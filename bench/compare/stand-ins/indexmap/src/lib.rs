//! Stand-in for indexmap: a map in the order of insertion. A key that is there keeps its place and gets the new value.
pub mod map {
    #[derive(Clone, Debug, PartialEq, Eq)]
    pub struct IndexMap<K, V> {
        pairs: Vec<(K, V)>,
    }

    impl<K: Eq, V> IndexMap<K, V> {
        pub fn new() -> Self {
            IndexMap { pairs: Vec::new() }
        }
        pub fn len(&self) -> usize {
            self.pairs.len()
        }
        pub fn is_empty(&self) -> bool {
            self.pairs.is_empty()
        }
        pub fn insert(&mut self, key: K, value: V) -> Option<V> {
            match self.pairs.iter_mut().find(|p| p.0 == key) {
                Some(pair) => Some(std::mem::replace(&mut pair.1, value)),
                None => {
                    self.pairs.push((key, value));
                    None
                }
            }
        }
        pub fn iter(&self) -> impl Iterator<Item = (&K, &V)> {
            self.pairs.iter().map(|(k, v)| (k, v))
        }
        pub fn keys(&self) -> impl Iterator<Item = &K> {
            self.pairs.iter().map(|p| &p.0)
        }
        pub fn retain(&mut self, mut keep: impl FnMut(&K, &mut V) -> bool) {
            self.pairs.retain_mut(|(k, v)| keep(k, v));
        }
    }

    impl<K: Eq, V> Default for IndexMap<K, V> {
        fn default() -> Self {
            Self::new()
        }
    }

    fn by_parts<K, V>(pair: &(K, V)) -> (&K, &V) {
        (&pair.0, &pair.1)
    }

    impl<'a, K, V> IntoIterator for &'a IndexMap<K, V> {
        type Item = (&'a K, &'a V);
        type IntoIter = std::iter::Map<std::slice::Iter<'a, (K, V)>, fn(&'a (K, V)) -> (&'a K, &'a V)>;
        fn into_iter(self) -> Self::IntoIter {
            self.pairs.iter().map(by_parts)
        }
    }
}

pub use map::IndexMap;
