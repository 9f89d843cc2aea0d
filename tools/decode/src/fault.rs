//! What is wrong with an image: the refusal, the place, and the broken rule in words.

use crate::Refusal;
use std::fmt;

#[derive(Clone, Copy, Debug, PartialEq, Eq)]
pub enum Place {
    /// The areas as a whole.
    Areas,
    Page(usize),
    PageByte(usize, usize),
    /// Slots are counted from 1, as records are.
    Slot(usize),
    SlotByte(usize, usize),
    /// A record that is to be redone, and the page that it changes.
    Change {
        slot: usize,
        page: usize,
    },
    Key(u32),
}

#[derive(Clone, Debug, PartialEq, Eq)]
pub struct Fault {
    pub refusal: Refusal,
    pub place: Place,
    pub rule: String,
}

impl Fault {
    pub fn new(refusal: Refusal, place: Place, rule: impl Into<String>) -> Fault {
        Fault { refusal, place, rule: rule.into() }
    }

    pub fn number(&self) -> u8 {
        self.refusal.number()
    }
}

impl fmt::Display for Place {
    fn fmt(&self, to: &mut fmt::Formatter<'_>) -> fmt::Result {
        match self {
            Place::Areas => write!(to, "the areas"),
            Place::Page(page) => write!(to, "page {page}"),
            Place::PageByte(page, byte) => write!(to, "page {page}, byte {byte} of it"),
            Place::Slot(slot) => write!(to, "slot {slot}"),
            Place::SlotByte(slot, byte) => write!(to, "slot {slot}, byte {byte} of it"),
            Place::Change { slot, page } => write!(to, "page {page}, where record {slot} is to be redone"),
            Place::Key(key) => write!(to, "key {key}"),
        }
    }
}

impl fmt::Display for Fault {
    fn fmt(&self, to: &mut fmt::Formatter<'_>) -> fmt::Result {
        write!(to, "{}: {}", self.place, self.rule)
    }
}
