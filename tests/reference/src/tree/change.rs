//! The seven changes of the tree, each written as one record. None is ever undone, whatever becomes of the batch that
//! caused it.

use crate::layout::{Entry, Kind, Record};
use crate::log::Work;
use crate::sizes::{ROOT, SPLIT_KEEPS};
use crate::Refusal;

/// Split a full page; the new right half is the highest free page.
pub fn split(work: &mut Work, page: usize) -> Result<(), Refusal> {
    let new = page_to_take(work)?;
    let old = work.page(page);
    let (kept, moved) = old.entries.split_at(SPLIT_KEEPS);
    let record = Record {
        level: old.level,
        a: page,
        b: new,
        key: last_key(kept),
        second: old.high,
        right: old.right,
        entries: moved.to_vec(),
        ..Record::new(Kind::Split)
    };
    work.write(record)
}

/// Give the indirect page after the child at `place` an entry of its own.
pub fn link(work: &mut Work, parent: usize, place: usize) -> Result<(), Refusal> {
    let entry = work.page(parent).entries[place];
    let left = work.page(entry.child());
    let record = Record {
        a: parent,
        b: entry.child(),
        c: left.right,
        key: left.high,
        second: entry.key,
        ..Record::new(Kind::Link)
    };
    work.write(record)
}

/// Take away the entry after the one at `place`, so that its child becomes indirect.
pub fn unlink(work: &mut Work, parent: usize, place: usize) -> Result<(), Refusal> {
    let left = work.page(parent).entries[place];
    let right = work.page(parent).entries[place + 1];
    let record = Record {
        a: parent,
        b: left.child(),
        c: right.child(),
        key: left.key,
        second: right.key,
        ..Record::new(Kind::Unlink)
    };
    work.write(record)
}

/// Move all entries of the right page into the left one and free it.
pub fn merge(work: &mut Work, left: usize, right: usize) -> Result<(), Refusal> {
    let freed = work.page(right);
    let record = Record {
        a: left,
        b: right,
        key: freed.high,
        right: freed.right,
        entries: freed.entries.clone(),
        ..Record::new(Kind::Merge)
    };
    work.write(record)
}

/// Share the entries of two pages evenly. "Redistribution gives the left page the larger half."
pub fn redistribute(work: &mut Work, left: usize, right: usize) -> Result<(), Refusal> {
    let left_entries = &work.page(left).entries;
    let right_entries = &work.page(right).entries;
    let left_half = (left_entries.len() + right_entries.len()).div_ceil(2);
    let (moved, key) = if left_half > left_entries.len() {
        let moved = &right_entries[..left_half - left_entries.len()];
        (moved, last_key(moved))
    } else {
        let (kept, moved) = left_entries.split_at(left_half);
        (moved, last_key(kept))
    };
    let record = Record { a: left, b: right, key, entries: moved.to_vec(), ..Record::new(Kind::Redistribute) };
    work.write(record)
}

/// The root has a right sibling: its entries go to a new page, and both become its children.
pub fn raise(work: &mut Work) -> Result<(), Refusal> {
    let new = page_to_take(work)?;
    let root = work.page(ROOT);
    let record = Record {
        level: root.level,
        a: ROOT,
        b: root.right,
        c: new,
        key: root.high,
        entries: root.entries.clone(),
        ..Record::new(Kind::Raise)
    };
    work.write(record)
}

/// The root has one child: the child's entries move up into it.
pub fn lower(work: &mut Work) -> Result<(), Refusal> {
    let only = work.page(ROOT).entries[0].child();
    let child = work.page(only);
    let record =
        Record { level: child.level, a: ROOT, b: only, entries: child.entries.clone(), ..Record::new(Kind::Lower) };
    work.write(record)
}

/// The slot is asked for first: 17 if both are short at once.
fn page_to_take(work: &Work) -> Result<usize, Refusal> {
    work.ask_for_slot()?;
    work.pages.highest_free().ok_or(Refusal::PagesShort)
}

fn last_key(entries: &[Entry]) -> u32 {
    entries[entries.len() - 1].key
}
