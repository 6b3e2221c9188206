//! Stands for `HashMap` in jit.rs: the standard library's, with its values
//! kept as plain numbers, so that no function pointer is made of an address
//! (jit.rs takes `*helper as usize`).
//!
//! Built with `--cfg hashless` it is a list that is searched from its start,
//! which shows what of the Rust's cost is hashing.

use std::marker::PhantomData;

#[cfg(not(hashless))]
type Kept<K> = std::collections::HashMap<K, usize>;
#[cfg(hashless)]
type Kept<K> = list::List<K>;

#[derive(Debug)]
pub struct HashMap<K, V> {
    kept: Kept<K>,
    values: PhantomData<V>,
}

impl<K: Eq + std::hash::Hash, V> HashMap<K, V> {
    #[inline]
    pub fn new() -> Self {
        HashMap { kept: Kept::new(), values: PhantomData }
    }

    #[inline]
    pub fn insert(&mut self, key: K, value: usize) {
        self.kept.insert(key, value);
    }

    #[inline]
    pub fn get(&self, key: &K) -> Option<&usize> {
        self.kept.get(key)
    }
}

#[cfg(hashless)]
mod list {
    #[derive(Debug)]
    pub struct List<K>(Vec<(K, usize)>);

    impl<K: Eq> List<K> {
        #[inline]
        pub fn new() -> Self {
            List(Vec::new())
        }

        #[inline]
        pub fn insert(&mut self, key: K, value: usize) {
            self.0.push((key, value));
        }

        #[inline]
        pub fn get(&self, key: &K) -> Option<&usize> {
            self.0.iter().find(|entry| entry.0 == *key).map(|entry| &entry.1)
        }
    }
}
