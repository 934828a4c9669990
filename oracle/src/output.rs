//! The row and its cells, as in docs/src/src/output.rs: only what flatten.rs uses.

use crate::types::Value;
use std::collections::HashSet;
use std::sync::{Mutex, OnceLock};

pub const FLATTENED_COLUMN: &str = "flattened";

/// One `&'static str` for each distinct name.
pub fn intern_column(name: &str) -> &'static str {
    static POOL: OnceLock<Mutex<HashSet<&'static str>>> = OnceLock::new();
    let pool = POOL.get_or_init(|| Mutex::new(HashSet::new()));
    let mut guard = pool.lock().expect("column intern pool poisoned");
    if let Some(&existing) = guard.get(name) {
        return existing;
    }
    let leaked: &'static str = Box::leak(name.to_owned().into_boxed_str());
    guard.insert(leaked);
    leaked
}

/// Cells in the order of their first insertion; the last write of a key wins.
#[derive(Debug, Default, Clone)]
pub struct CellMap {
    entries: Vec<(&'static str, Value)>,
}

impl CellMap {
    #[inline]
    pub fn insert(&mut self, key: &'static str, value: Value) -> Option<Value> {
        for (k, v) in self.entries.iter_mut() {
            if *k == key {
                return Some(std::mem::replace(v, value));
            }
        }
        if self.entries.is_empty() {
            self.entries.reserve(8);
        }
        self.entries.push((key, value));
        None
    }

    #[inline]
    pub fn get(&self, key: &str) -> Option<&Value> {
        self.entries.iter().find(|(k, _)| *k == key).map(|(_, v)| v)
    }

    #[inline]
    pub fn remove(&mut self, key: &str) -> Option<Value> {
        let position = self.entries.iter().position(|(k, _)| *k == key)?;
        Some(self.entries.remove(position).1)
    }

    #[inline]
    pub fn iter(&self) -> impl Iterator<Item = (&&'static str, &Value)> {
        self.entries.iter().map(|(k, v)| (k, v))
    }
}

#[derive(Debug, Default, Clone)]
pub struct Row {
    pub line_no: usize,
    pub cells: CellMap,
    pub variable_changes: Vec<(String, f64)>,
}
