//! Each kind of page change by itself: a log that ends with it, and pages that have all records before it and, but for
//! one or for all that it changes, this one too. Redo then judges just that change. Every bit of the record and of the
//! page is turned, and both are forged.

use super::{put, restart, Tried};
use crate::beside::Beside;
use crate::difference::Difference;
use reference::bench::forge::{forge_page, forge_record};
use reference::bench::Random;
use reference::calls::{take_back, write_update};
use reference::layout::{Areas, Entry, Kind, Page, PageKind, Pages, Record};
use reference::log::{page_changes, redo, Log, Work};
use reference::sizes::{ENTRY_BYTES, HIGHEST_LEVEL, MAP, PAGE_BYTES, SLOT_BYTES};
use std::collections::{BTreeMap, BTreeSet};
use std::fmt::Display;

const PAGES: usize = 100;
const SLOTS: usize = 2000;

/// Each history, its cases of rising keys, of any keys and of deletes, and the most updates of a case.
const SEEDS: std::ops::Range<u64> = 1..120;
const CASES: usize = 40;
const UPDATES: usize = 6;

/// How many kinds of change, levels told apart and redistributions by their direction, the histories have at least.
const CHANGES: usize = 20;

/// How often a change is forged on each of its pages.
const FORGED: usize = 300;

/// Room for what a restart adds.
const MORE_SLOTS: usize = 64;

/// Where the entries of a page and of a record begin.
const PAGE_HEAD: usize = 16;
const RECORD_HEAD: usize = 32;

pub fn bits_around_changes() -> Tried {
    around_changes(Alone::turn_bits)
}

pub fn forged_around_changes() -> Tried {
    around_changes(Alone::forge)
}

/// Try each change on each of its pages.
pub(super) fn around_changes(tries: fn(&mut Alone) -> Result<(), Difference>) -> Tried {
    let mut beside = Beside::new();
    for records in logs() {
        let changed: Vec<usize> = page_changes(&records[records.len() - 1]).iter().map(|change| change.1).collect();
        let all = (changed.len() > 1).then_some(&changed[..]);
        for lacking in changed.iter().map(std::slice::from_ref).chain(all) {
            let mut alone = Alone::new(beside, &records, lacking);
            tries(&mut alone).map_err(|difference| difference.at(alone.name()))?;
            beside = alone.beside;
        }
    }
    Ok(beside.tally)
}

/// A log that ends with each kind of change at each level: the shortest one of some histories.
fn logs() -> Vec<Vec<Record>> {
    let mut shortest: BTreeMap<_, Vec<Record>> = BTreeMap::new();
    for seed in SEEDS {
        let mut pages = Pages::formatted(PAGES);
        let records = history(seed);
        for (count, record) in (1..).zip(&records) {
            redo(&mut pages, std::slice::from_ref(record)).expect("a history");
            if let Some((_, page)) = page_changes(record).first() {
                let moved_key = record.entries.first().map_or(0, |entry| entry.key);
                let to_the_right = record.kind == Kind::Redistribute && moved_key > record.key;
                let change = (record.kind, pages.list[*page].level, to_the_right);
                if shortest.get(&change).is_none_or(|log| log.len() > count) {
                    shortest.insert(change, records[..count].to_vec());
                }
            }
        }
    }
    assert!(shortest.len() >= CHANGES, "only {:?}", shortest.keys());
    shortest.into_values().collect()
}

/// A register that grows to three levels and shrinks again, in cases of a few updates; some are taken back.
fn history(seed: u64) -> Vec<Record> {
    let mut random = Random::new(seed);
    let mut work = Work::formatted(PAGES, SLOTS);
    let mut present = BTreeSet::new();
    for case in 0..4 * CASES {
        work.write(Record::new(Kind::Begin)).expect("room");
        let batch = work.log.last_number();
        let mut after = present.clone();
        for update in 0..UPDATES {
            let key = some_key(&mut random, case, update);
            if case < 2 * CASES && after.insert(key) {
                write_update(&mut work, batch, Kind::Insert, Entry::new(key, key ^ 5)).expect("room");
            } else if let Some(key) = after.range(key..).next().copied().filter(|_| case >= 2 * CASES) {
                after.remove(&key);
                write_update(&mut work, batch, Kind::Delete, Entry::new(key, key ^ 5)).expect("room");
            }
        }
        if case % 6 == 5 {
            take_back(&mut work, batch).expect("room");
        } else {
            work.write_about_batch(Kind::Commit, batch).expect("room");
            present = after;
        }
    }
    work.log.records
}

/// First rising keys, which leave leaves half full, so that there are soon many; then any, which fill some of them.
fn some_key(random: &mut Random, case: usize, update: usize) -> u32 {
    let most = 2 * UPDATES * CASES;
    let key = if case < CASES { 2 * (UPDATES * case + update) } else { random.below(most) };
    key as u32
}

/// A change to be redone and no other.
pub(super) struct Alone {
    beside: Beside,
    records: Vec<Record>,
    /// The pages that lack the last record, and the first of them as it was without it.
    pub(super) lacking: Vec<usize>,
    pub(super) before: Page,
    areas: Areas,
}

impl Alone {
    fn new(beside: Beside, records: &[Record], lacking: &[usize]) -> Alone {
        let mut before = Pages::formatted(PAGES);
        redo(&mut before, &records[..records.len() - 1]).expect("a history");
        let mut after = before.clone();
        redo(&mut after, &records[records.len() - 1..]).expect("a history");
        let mut pages = after.bytes();
        for page in lacking {
            put(&mut pages, PAGE_BYTES, *page, &before.page_bytes(*page));
        }
        let log = Log { records: records.to_vec(), slots: records.len() + MORE_SLOTS }.bytes();
        let areas =
            Areas { working_pages: pages.clone(), stable_pages: pages, working_log: log.clone(), stable_log: log };
        let before = before.list[lacking[0]].clone();
        Alone { beside, records: records.to_vec(), lacking: lacking.to_vec(), before, areas }
    }

    pub(super) fn last(&self) -> &Record {
        &self.records[self.records.len() - 1]
    }

    fn name(&self) -> String {
        format!("{} records, the last ({:?}) not in pages {:?}", self.records.len(), self.last().kind, self.lacking)
    }

    fn restart(&mut self, what: impl Display) -> Result<(), Difference> {
        restart(&mut self.beside, &self.areas, what).map(drop)
    }

    /// The same with another last record, and with another page for the first that lacks it. The map stays.
    pub(super) fn restart_with(&mut self, record: &Record, page: &Page, what: impl Display) -> Result<(), Difference> {
        put(&mut self.areas.stable_log, SLOT_BYTES, self.records.len() - 1, &record.bytes());
        if self.lacking[0] != MAP {
            put(&mut self.areas.stable_pages, PAGE_BYTES, self.lacking[0], &page.bytes());
        }
        self.restart(what)
    }

    /// Turn each bit of the last record, and each bit of a page that alone lacks it.
    fn turn_bits(&mut self) -> Result<(), Difference> {
        self.restart("undamaged")?;
        let record = (self.records.len() - 1) * SLOT_BYTES;
        for bit in 0..8 * used(RECORD_HEAD, self.last().entries.len(), SLOT_BYTES) {
            self.areas.stable_log[record + bit / 8] ^= 0x80 >> (bit % 8);
            self.restart(format!("bit {bit} of the record turned"))?;
            self.areas.stable_log[record + bit / 8] ^= 0x80 >> (bit % 8);
        }
        // Where all pages lack the record, each one's bits have had their turn.
        if self.lacking.len() > 1 {
            return Ok(());
        }
        let page = self.lacking[0] * PAGE_BYTES;
        for bit in 0..8 * used(PAGE_HEAD, self.before.entries.len(), PAGE_BYTES) {
            self.areas.stable_pages[page + bit / 8] ^= 0x80 >> (bit % 8);
            self.restart(format!("bit {bit} of the page turned"))?;
            self.areas.stable_pages[page + bit / 8] ^= 0x80 >> (bit % 8);
        }
        Ok(())
    }

    /// Forge the last record, the page, or both.
    fn forge(&mut self) -> Result<(), Difference> {
        let mut random = Random::new(7);
        for turn in 0..FORGED {
            let (mut record, mut page) = (self.last().clone(), self.before.clone());
            (0..random.below(3)).for_each(|_| forge_record(&mut random, &mut record, PAGES));
            if random.once_in(8) {
                same_level(&mut random, &mut record, &mut page);
            }
            if self.lacking[0] != MAP {
                (0..random.below(3)).for_each(|_| forge_page(&mut random, &mut page));
            }
            self.restart_with(&record, &page, format!("forged, turn {turn}"))?;
        }
        Ok(())
    }
}

/// Both at one level, the highest ones too.
fn same_level(random: &mut Random, record: &mut Record, page: &mut Page) {
    let level = [0, 1, HIGHEST_LEVEL - 1, HIGHEST_LEVEL][random.below(4)];
    record.level = level;
    page.level = level;
    page.kind = PageKind::at_level(level);
}

/// The head, the entries and one unused entry.
fn used(head: usize, entries: usize, most: usize) -> usize {
    (head + ENTRY_BYTES * (entries + 1)).min(most)
}
