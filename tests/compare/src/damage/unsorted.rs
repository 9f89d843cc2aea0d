//! Small registers forged out of order, which their logs sometimes put in order again: a leaf with the updates of a batch,
//! and a root beside its sibling with a merge or a redistribution of few entries or none.

use super::{met_both_sides, restart, Tried};
use crate::beside::Beside;
use reference::bench::Random;
use reference::layout::{Areas, Entry, Kind, Page, PageKind, Pages, Record};
use reference::log::{redo, Log};
use reference::sizes::{FEWEST_PAGES, FEWEST_SLOTS, ROOT, TOP};

const REGISTERS: usize = 4000;

/// Keys are few, so that a leaf has them twice and updates meet them.
const KEYS: usize = 6;

/// The most updates of a batch, and the most slides of two leaves.
const UPDATES: usize = 6;
const SLIDES: usize = 13;

const SIBLING: usize = 2;

pub fn unsorted_registers() -> Tried {
    let mut beside = Beside::new();
    let mut random = Random::new(25);
    for number in 0..REGISTERS {
        restart(&mut beside, &updated_leaf(&mut random), format!("updated leaf {number}"))?;
        restart(&mut beside, &joined_pages(&mut random), format!("joined pages {number}"))?;
    }
    met_both_sides(beside.tally)
}

fn image(pages: &Pages, records: Vec<Record>) -> Areas {
    let (pages, log) = (pages.bytes(), Log { records, slots: 8 * FEWEST_SLOTS }.bytes());
    Areas { working_pages: pages.clone(), stable_pages: pages, working_log: log.clone(), stable_log: log }
}

/// A root leaf with slides of any keys, and updates of one batch on it, of which some are undone.
fn updated_leaf(random: &mut Random) -> Areas {
    let mut pages = Pages::formatted(4 * FEWEST_PAGES);
    pages.list[ROOT].entries = (0..random.within(1, 4)).map(|_| slide(random)).collect();
    let mut redone = pages.clone();
    let mut records = vec![Record { own: 1, batch: 1, ..Record::new(Kind::Begin) }];
    let mut pending = Vec::new();
    for _ in 0..random.within(1, UPDATES) {
        let update = update(random, &redone.list[ROOT], &mut pending, records.len() as u32);
        // One that is refused leaves the page: whoever does not refuse it goes on with the records after it.
        let _ = redo(&mut redone, std::slice::from_ref(&update));
        records.push(update);
    }
    if !random.once_in(3) {
        let last = records.len() as u32;
        records.push(Record { own: last + 1, batch: 1, previous: last, ..Record::new(Kind::Commit) });
    }
    image(&pages, records)
}

fn slide(random: &mut Random) -> Entry {
    Entry::new(random.below(KEYS) as u32, random.below(2) as u32)
}

/// The batch's next record: mostly the delete of a slide that is there, an insert, or the undo of the newest update.
fn update(random: &mut Random, leaf: &Page, pending: &mut Vec<Record>, last: u32) -> Record {
    let record = |kind, slide: Entry, previous| Record {
        own: last + 1,
        batch: 1,
        previous,
        a: ROOT,
        key: slide.key,
        second: slide.value,
        ..Record::new(kind)
    };
    if let Some(newest) = pending.pop_if(|_| random.once_in(5)) {
        let previous = pending.last().map_or(0, |update| update.own);
        return match newest.kind {
            Kind::Insert => record(Kind::UndoInsert, Entry::new(newest.key, 0), previous),
            _ => record(Kind::UndoDelete, Entry::new(newest.key, newest.second), previous),
        };
    }
    let there = random.pick(&leaf.entries).filter(|_| !random.once_in(3));
    let update = match there {
        Some(slide) => record(Kind::Delete, slide, last),
        None => record(Kind::Insert, slide(random), last),
    };
    pending.push(update.clone());
    update
}

/// Two pages beside each other, out of order within or from one to the other, and entries that move between them.
fn joined_pages(random: &mut Random) -> Areas {
    let entries = nearly_rising(random);
    let (left, right) = entries.split_at(random.below(entries.len() + 1));
    let level = usize::from(random.once_in(4));
    let mut pages = Pages::formatted(FEWEST_PAGES);
    pages.list[ROOT] = page(ROOT, level, SIBLING, left);
    pages.list[SIBLING] = page(SIBLING, level, 0, right);
    pages.map.take(SIBLING);
    image(&pages, vec![joined(random, left, right)])
}

/// Rising entries, of which some have changed places with the next one or have its key.
fn nearly_rising(random: &mut Random) -> Vec<Entry> {
    let mut entries: Vec<Entry> = (0..random.below(SLIDES) as u32).map(|key| Entry::to_child(10 * key, 9)).collect();
    for _ in 0..random.below(3) {
        let place = random.below(SLIDES);
        if place + 1 < entries.len() && random.once_in(3) {
            entries[place].key = entries[place + 1].key;
        } else if place + 1 < entries.len() {
            entries.swap(place, place + 1);
        }
    }
    entries
}

fn page(own: usize, level: usize, right: usize, entries: &[Entry]) -> Page {
    let high = if right == 0 { TOP } else { entries.last().map_or(0, |entry| entry.key) };
    Page { kind: PageKind::at_level(level), level, right, left: 0, high, log: 0, own, entries: entries.to_vec() }
}

/// A merge of all that the right page has, or a redistribution of few entries or none, either way.
fn joined(random: &mut Random, left: &[Entry], right: &[Entry]) -> Record {
    let record = |kind, key, moved: &[Entry]| Record {
        own: 1,
        a: ROOT,
        b: SIBLING,
        key,
        entries: moved.to_vec(),
        ..Record::new(kind)
    };
    let last_key = |entries: &[Entry]| entries.last().map_or(0, |entry| entry.key);
    let count = random.below(4);
    match random.below(3) {
        0 => record(Kind::Merge, TOP, right),
        1 => {
            let moved = &right[..count.min(right.len())];
            record(Kind::Redistribute, last_key(if moved.is_empty() { left } else { moved }), moved)
        }
        _ => {
            let (kept, moved) = left.split_at(left.len() - count.min(left.len()));
            record(Kind::Redistribute, last_key(kept), moved)
        }
    }
}
