//! A register that has long been at work. Its records are written without going through the calls, as each call judges
//! the whole log again; what stands in its areas is what the calls would have left.

use crate::bench::{Instrument, Random};
use crate::calls::{pages_suffice, slots_suffice, take_back, update};
use crate::layout::{Areas, Entry, Kind, Record};
use crate::log::Work;
use crate::sizes::{PAGE_BYTES, SLOT_BYTES, TOP, UPDATE_PAGES, UPDATE_RECORDS};
use std::collections::BTreeMap;

/// How many updates a batch makes at most.
const UPDATES: usize = 6;

pub struct Aged {
    pub work: Work,
    /// What stands in the leaves.
    pub slides: BTreeMap<u32, u32>,
    /// The pages as they were when they were last written out.
    stable_pages: Vec<u8>,
    stored: usize,
}

/// So many pages and slots, used up but for about so many slots, and the slides that are filed.
pub fn aged(random: &mut Random, pages: usize, slots: usize, left: usize) -> (Instrument, BTreeMap<u32, u32>) {
    let mut aged = Aged::new(pages, slots);
    while aged.work.log.records.len() + left < slots && aged.has_room() {
        aged = aged.file_a_case(random);
    }
    aged.finished()
}

impl Aged {
    /// Just formatted.
    pub fn new(pages: usize, slots: usize) -> Aged {
        let work = Work::formatted(pages, slots);
        Aged { stable_pages: work.pages.stored().bytes(), work, slides: BTreeMap::new(), stored: 0 }
    }

    pub fn begin(&mut self) -> u32 {
        self.work.write(Record::new(Kind::Begin)).expect("a slot is left");
        self.work.log.last_number()
    }

    pub fn commit(&mut self, batch: u32) {
        self.work.write_about_batch(Kind::Commit, batch).expect("the reserves hold");
        self.stored = self.work.log.records.len();
    }

    fn has_room(&self) -> bool {
        slots_suffice(&self.work, UPDATES * UPDATE_RECORDS, UPDATES, 1)
    }

    fn file_a_case(mut self, random: &mut Random) -> Aged {
        let batch = self.begin();
        // Copied only for a case that is taken back.
        let before = random.once_in(12).then(|| self.slides.clone());
        for _ in 0..random.within(1, UPDATES) {
            self = self.update(random, batch);
        }
        if let Some(before) = before {
            take_back(&mut self.work, batch).expect("the reserves hold");
            self.slides = before;
        } else {
            self.commit(batch);
        }
        if random.once_in(4) {
            let page = random.below(self.work.pages.count());
            self.write_out(page);
        }
        self
    }

    /// An insert, or where pages are short or once in a while a delete.
    fn update(mut self, random: &mut Random, batch: u32) -> Aged {
        // Keys from anywhere below the middle, or rising ones above it, which leave pages half full.
        let rising = TOP / 2 + 64 * self.work.log.last_number();
        let key = if random.once_in(2) { random.number() / 2 } else { rising };
        let grows = pages_suffice(&self.work, UPDATE_PAGES * UPDATES, UPDATES) && !random.once_in(8);
        let there = self.slides.range(key..).next().or(self.slides.iter().next());
        let there = there.map(|(key, value)| Entry::new(*key, *value));
        let (kind, slide) = match there {
            Some(slide) if !grows || slide.key == key => (Kind::Delete, slide),
            _ => (Kind::Insert, Entry::new(key, random.number())),
        };
        match kind {
            Kind::Delete => self.slides.remove(&slide.key),
            _ => self.slides.insert(slide.key, slide.value),
        };
        Aged { work: update(self.work, batch, kind, slide).expect("there is room"), ..self }
    }

    pub fn write_out(&mut self, page: usize) {
        self.stored = self.work.log.records.len();
        let bytes = self.work.pages.stored().page_bytes(page);
        self.stable_pages[page * PAGE_BYTES..][..PAGE_BYTES].copy_from_slice(&bytes);
    }

    pub fn finished(self) -> (Instrument, BTreeMap<u32, u32>) {
        let working_log = self.work.log.bytes();
        let mut stable_log = working_log.clone();
        stable_log[self.stored * SLOT_BYTES..].fill(0);
        let desk = self.work.open.desk(self.work.log.last_number(), self.stored as u32);
        let areas =
            Areas { working_pages: self.work.pages.bytes(), stable_pages: self.stable_pages, working_log, stable_log };
        (Instrument { areas, desk, cut: None }, self.slides)
    }
}
