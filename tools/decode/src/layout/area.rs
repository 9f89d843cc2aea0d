//! The four lent areas, and the stores that reach the stable ones.

use crate::sizes::{FEWEST_PAGES, FEWEST_SLOTS, MOST_PAGES, MOST_SLOTS, PAGE_BYTES, SLOT_BYTES};

#[derive(Clone, Debug, Default, PartialEq, Eq)]
pub struct Areas {
    pub working_pages: Vec<u8>,
    pub stable_pages: Vec<u8>,
    pub working_log: Vec<u8>,
    pub stable_log: Vec<u8>,
}

/// "One store is one page or one record." The bytes are what the place holds afterwards.
#[derive(Clone, Debug, PartialEq, Eq)]
pub enum Store {
    Page { page: usize, bytes: [u8; PAGE_BYTES] },
    Slot { slot: usize, bytes: [u8; SLOT_BYTES] },
}

impl Areas {
    /// What refusal 1 judges. "Working and stable areas of a kind have equal length."
    pub fn lengths_are_right(&self) -> bool {
        let pages = self.working_pages.len();
        let log = self.working_log.len();
        pages == self.stable_pages.len()
            && log == self.stable_log.len()
            && pages % PAGE_BYTES == 0
            && log % SLOT_BYTES == 0
            && (FEWEST_PAGES..=MOST_PAGES).contains(&(pages / PAGE_BYTES))
            && (FEWEST_SLOTS..=MOST_SLOTS).contains(&(log / SLOT_BYTES))
    }

    pub fn page_count(&self) -> usize {
        self.working_pages.len() / PAGE_BYTES
    }

    pub fn slot_count(&self) -> usize {
        self.working_log.len() / SLOT_BYTES
    }

    pub fn carry_out(&mut self, store: &Store) {
        match store {
            Store::Page { page, bytes } => self.stable_pages[page * PAGE_BYTES..][..PAGE_BYTES].copy_from_slice(bytes),
            Store::Slot { slot, bytes } => self.stable_log[slot * SLOT_BYTES..][..SLOT_BYTES].copy_from_slice(bytes),
        }
    }

    /// Areas of so many pages and slots, the added part zero.
    pub fn grown(&self, pages: usize, slots: usize) -> Areas {
        let mut grown = self.clone();
        grown.working_pages.resize(pages * PAGE_BYTES, 0);
        grown.stable_pages.resize(pages * PAGE_BYTES, 0);
        grown.working_log.resize(slots * SLOT_BYTES, 0);
        grown.stable_log.resize(slots * SLOT_BYTES, 0);
        grown
    }

    /// Grown by zeros until working and stable areas are equally long and hold whole pages and slots.
    pub fn with_right_lengths(&self) -> Areas {
        let pages = self.working_pages.len().max(self.stable_pages.len()).div_ceil(PAGE_BYTES);
        let slots = self.working_log.len().max(self.stable_log.len()).div_ceil(SLOT_BYTES);
        self.grown(pages, slots)
    }

    /// Both working areas filled with one byte: what refused restarts leave (0), or a cut.
    pub fn fill_working(&mut self, byte: u8) {
        self.working_pages.fill(byte);
        self.working_log.fill(byte);
    }
}

impl Areas {
    /// In the order in which the vectors lend and print them.
    pub fn each(&self) -> [&Vec<u8>; 4] {
        [&self.working_pages, &self.stable_pages, &self.working_log, &self.stable_log]
    }

    pub fn each_mut(&mut self) -> [&mut Vec<u8>; 4] {
        [&mut self.working_pages, &mut self.stable_pages, &mut self.working_log, &mut self.stable_log]
    }
}
