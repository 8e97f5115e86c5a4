//! Of the engine's functions: access, the table of cases, and two hashes that document 01 leaves behind.

#[derive(Debug, Clone, Copy, PartialEq, Eq)]
pub enum FnAccess {
    Public,
    Private,
}

/// Keeps every case, in file order, where the original keeps one of those that have the same hash.
#[derive(Debug, Clone)]
pub struct StraightHashMap<V>(Vec<V>);

impl<V> Default for StraightHashMap<V> {
    fn default() -> Self {
        Self(Vec::new())
    }
}

impl<V> StraightHashMap<V> {
    pub fn insert(&mut self, _hash: u64, value: V) {
        self.0.push(value);
    }

    pub fn is_empty(&self) -> bool {
        self.0.is_empty()
    }

    pub fn len(&self) -> usize {
        self.0.len()
    }

    pub fn values(&self) -> core::slice::Iter<'_, V> {
        self.0.iter()
    }
}

pub fn calc_switch_value_hash<T>(_value: &T) -> u64 {
    0
}

pub fn calc_fn_hash(_namespace: Option<&str>, _name: &str, _num: usize) -> u64 {
    0
}
