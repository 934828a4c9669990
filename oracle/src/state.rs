//! The names that flatten.rs takes from docs/src/src/state.rs. A warning is kept instead of printed.

use std::cell::RefCell;
use std::collections::HashMap;
use std::hash::{BuildHasherDefault, Hasher};

pub const BLOCK_ADDRESSES: &[&str] = &["I", "J", "K", "CR", "TURN", "PW", "SD", "PL"];

/// The original's hasher is a crate of its own; this is its kind, so that speeds compare fairly.
#[derive(Default, Clone, Copy)]
pub struct FxHasher(u64);

impl Hasher for FxHasher {
    fn write(&mut self, bytes: &[u8]) {
        for &byte in bytes {
            self.0 = (self.0.rotate_left(5) ^ byte as u64).wrapping_mul(0x517c_c1b7_2722_0a95);
        }
    }

    fn finish(&self) -> u64 {
        self.0
    }
}

pub(crate) type FxMap<K, V> = HashMap<K, V, BuildHasherDefault<FxHasher>>;

thread_local! {
    static WARNINGS: RefCell<Vec<String>> = const { RefCell::new(Vec::new()) };
}

pub fn emit_warning(args: std::fmt::Arguments) {
    WARNINGS.with(|kept| kept.borrow_mut().push(args.to_string()));
}

/// The warnings since the last time.
pub fn taken_warnings() -> Vec<String> {
    WARNINGS.with(|kept| kept.take())
}
