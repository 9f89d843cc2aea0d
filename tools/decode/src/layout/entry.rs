//! An entry of a page or record: a key, and a leaf's value or an index's child.

use super::words::{set_word, word};
use crate::sizes::{CHILD_LIMIT, ENTRY_BYTES};

#[derive(Clone, Copy, Debug, PartialEq, Eq)]
pub struct Entry {
    pub key: u32,
    /// All 32 bits after the key. In an index the upper 22 are spare, and a child that has them set is no page's number.
    pub value: u32,
}

impl Entry {
    pub fn new(key: u32, value: u32) -> Entry {
        Entry { key, value }
    }

    pub fn to_child(key: u32, child: usize) -> Entry {
        Entry { key, value: child as u32 }
    }

    pub fn child(&self) -> usize {
        self.value as usize
    }

    /// Whether the entry may stand in an index: nothing above the child's ten bits.
    pub fn fits_index(&self) -> bool {
        self.value < CHILD_LIMIT
    }
}

/// The first entry whose key is not below `key`. Looked for from the left, so that it is defined on forged pages too.
pub fn entry_place(entries: &[Entry], key: u32) -> usize {
    entries.iter().position(|entry| entry.key >= key).unwrap_or(entries.len())
}

pub fn read_entries(bytes: &[u8], count: usize) -> Vec<Entry> {
    let entry = |bytes: &[u8]| Entry::new(word(bytes, 0), word(bytes, 1));
    bytes.chunks_exact(ENTRY_BYTES).take(count).map(entry).collect()
}

pub fn write_entries(entries: &[Entry], bytes: &mut [u8]) {
    for (entry, place) in entries.iter().zip(bytes.chunks_exact_mut(ENTRY_BYTES)) {
        set_word(place, 0, entry.key);
        set_word(place, 1, entry.value);
    }
}
