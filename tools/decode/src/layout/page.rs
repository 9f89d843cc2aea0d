//! A page: kind 2, level 4, count 4, right link 10, left link 10, spare 2; high key 32; page log number 32; own page
//! number 10, spare 22; then 14 entries of 64 bits. Only working leaves have a left link (02, U5): in all other pages, and
//! in all stable ones, its bits are spare.

use super::entry::{read_entries, write_entries, Entry};
use super::words::{field, in_field, set_word, word};
use crate::sizes::{ENTRY_BYTES, MAP, MOST_ENTRIES, PAGE_BYTES};

/// Where kind, level, count and right link stand; where the left link begins; the own number; and the entries, or the
/// map's bits.
pub const HEAD: usize = 0;
pub const LEFT: usize = 2;
pub const OWN: usize = 12;
pub const BODY: usize = 16;

/// Fine, or the byte of the page and the rule that it breaks.
pub type Judged = Result<(), (usize, String)>;

#[derive(Clone, Copy, Debug, PartialEq, Eq)]
pub enum PageKind {
    Free,
    Leaf,
    Index,
    Map,
}

impl PageKind {
    fn of_number(number: usize) -> PageKind {
        [PageKind::Free, PageKind::Leaf, PageKind::Index, PageKind::Map][number]
    }

    /// "A leaf's level is 0, an index's level is not 0."
    pub fn at_level(level: usize) -> PageKind {
        if level == 0 {
            PageKind::Leaf
        } else {
            PageKind::Index
        }
    }
}

#[derive(Clone, Debug, PartialEq, Eq)]
pub struct Page {
    pub kind: PageKind,
    pub level: usize,
    /// The page to the right on the same level, 0 for none.
    pub right: usize,
    /// The leaf to the left of a working leaf, 0 for none.
    pub left: usize,
    pub high: u32,
    /// The number of the last record that changed this page.
    pub log: u32,
    pub own: usize,
    /// As many as the count says. The map has none: its bits are kept in `Map`.
    pub entries: Vec<Entry>,
}

impl Page {
    pub fn free(own: usize, log: u32) -> Page {
        Page { kind: PageKind::Free, level: 0, right: 0, left: 0, high: 0, log, own, entries: Vec::new() }
    }

    /// The page as it is stored: "in working pages only; write-out stores it as zero".
    pub fn stored(&self) -> Page {
        Page { left: 0, ..self.clone() }
    }

    pub fn is_leaf(&self) -> bool {
        self.kind == PageKind::Leaf
    }

    pub fn is_index(&self) -> bool {
        self.kind == PageKind::Index
    }

    pub fn is_full(&self) -> bool {
        self.entries.len() == MOST_ENTRIES
    }

    /// The count's four bits.
    pub fn count_in(bytes: &[u8]) -> usize {
        field(word(bytes, 0), 6, 4)
    }

    /// The fields that the bytes hold, whatever else the bytes hold. A count of 15 reads as 14 entries.
    pub fn read(bytes: &[u8]) -> Page {
        let head = word(bytes, 0);
        let kind = PageKind::of_number(field(head, 0, 2));
        let count = if kind == PageKind::Map { 0 } else { Page::count_in(bytes) };
        Page {
            kind,
            level: field(head, 2, 4),
            right: field(head, 10, 10),
            left: if kind == PageKind::Leaf { field(head, 20, 10) } else { 0 },
            high: word(bytes, 1),
            log: word(bytes, 2),
            own: field(word(bytes, 3), 0, 10),
            entries: read_entries(&bytes[BODY..], count),
        }
    }

    pub fn bytes(&self) -> [u8; PAGE_BYTES] {
        let mut bytes = [0; PAGE_BYTES];
        let head = in_field(self.kind as usize, 0, 2)
            | in_field(self.level, 2, 4)
            | in_field(self.entries.len(), 6, 4)
            | in_field(self.right, 10, 10)
            | in_field(self.left, 20, 10);
        set_word(&mut bytes, 0, head);
        set_word(&mut bytes, 1, self.high);
        set_word(&mut bytes, 2, self.log);
        set_word(&mut bytes, 3, in_field(self.own, 0, 10));
        write_entries(&self.entries, &mut bytes[BODY..]);
        bytes
    }

    /// What the layout asks of a page at its place, its spare bits and unused entries aside.
    pub fn judge_layout(&self, place: usize) -> Judged {
        if (self.kind == PageKind::Map) != (place == MAP) {
            return Err((HEAD, "page 0 is the map, and no other page is".to_string()));
        }
        // A page that was never used is all zero.
        let own_place = self.own == place || self.kind == PageKind::Free && self.log == 0 && self.own == 0;
        if !own_place {
            return Err((OWN, format!("it gives its own number as {}", self.own)));
        }
        match self.kind {
            PageKind::Free if !self.is_empty_free_page() => {
                Err((HEAD, "a free page has nothing but its log number and its own number".to_string()))
            }
            PageKind::Leaf if self.level != 0 => Err((HEAD, format!("a leaf has level {}", self.level))),
            PageKind::Index => self.judge_index(),
            PageKind::Map if self.level != 0 || self.right != 0 || self.high != 0 => {
                Err((HEAD, "the map has a level, a right link or a high key".to_string()))
            }
            _ => Ok(()),
        }
    }

    fn judge_index(&self) -> Judged {
        if self.level == 0 {
            return Err((HEAD, "an index page has level 0".to_string()));
        }
        match self.entries.iter().position(|entry| !entry.fits_index()) {
            Some(place) => {
                Err((BODY + ENTRY_BYTES * place + 4, format!("entry {place} has more than a child's ten bits")))
            }
            None => Ok(()),
        }
    }

    /// "A free page is zero but for log number and own number."
    fn is_empty_free_page(&self) -> bool {
        *self == Page::free(self.own, self.log)
    }
}
