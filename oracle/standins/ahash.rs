//! Stand-in for the crate `ahash`: a map over the standard library's hasher with fixed keys.
//! The order in which such a map gives its entries differs from the real crate's. No result
//! depends on it: a record has one name and one place, so no two pairs share a record.
use std::collections::HashMap;
use std::hash::{BuildHasherDefault, DefaultHasher};

pub type RandomState = BuildHasherDefault<DefaultHasher>;
pub type AHashMap<K, V> = HashMap<K, V, RandomState>;
