//! The pages of a loaded register (02, U3), from its records and the number of pages alone: what is stored when is the
//! call's matter, and so are the left links, which are not stored.

use crate::layout::{Entry, Page, PageKind, Pages};
use crate::sizes::{FEWEST_ENTRIES, MOST_ENTRIES, ROOT, TOP};

/// "Leaves take 10 each", and index pages too: room to grow without a split.
const FILLED: usize = 10;

/// The pages that hold these records, whose keys rise strictly; none where they do not fit so many pages.
pub fn pages_for(records: &[Entry], count: usize) -> Option<Pages> {
    let levels = group_sizes(records.len());
    let mut end = ROOT + levels.iter().map(Vec::len).sum::<usize>();
    if end > count {
        return None;
    }
    let mut pages = Pages::formatted(count);
    let mut entries = records.to_vec();
    // "Numbered from 2, from the level below the root downwards": the leaves have the last numbers, the root the first.
    for (level, sizes) in levels.iter().enumerate() {
        let first = end - sizes.len();
        entries = fill_level(&mut pages, level, first, sizes, &entries);
        end = first;
    }
    Some(pages)
}

/// How many entries each page of each level holds, the leaves first and the root last.
fn group_sizes(records: usize) -> Vec<Vec<usize>> {
    let mut levels = Vec::new();
    let mut entries = records;
    while entries > MOST_ENTRIES {
        let sizes = sizes_of_level(entries);
        entries = sizes.len();
        levels.push(sizes);
    }
    levels.push(vec![entries]);
    levels
}

/// "10 each, and if the last would hold fewer than 4 it shares evenly with the one before, the left taking the larger
/// half."
fn sizes_of_level(entries: usize) -> Vec<usize> {
    let mut sizes = vec![FILLED; entries / FILLED];
    match entries % FILLED {
        0 => {}
        rest @ FEWEST_ENTRIES.. => sizes.push(rest),
        rest => {
            let shared = FILLED + rest;
            sizes.pop();
            sizes.extend([shared.div_ceil(2), shared / 2]);
        }
    }
    sizes
}

/// Fill the pages of a level from `first` on; answers the links to them.
fn fill_level(pages: &mut Pages, level: usize, first: usize, sizes: &[usize], entries: &[Entry]) -> Vec<Entry> {
    let mut rest = entries;
    let mut links = Vec::new();
    for (own, size) in (first..).zip(sizes) {
        let group;
        (group, rest) = rest.split_at(*size);
        let is_last = rest.is_empty();
        // An index entry's key is its child's high key, so this is the last record's below it, too.
        let high = group.last().filter(|_| !is_last).map_or(TOP, |last| last.key);
        let right = if is_last { 0 } else { own + 1 };
        let kind = PageKind::at_level(level);
        pages.list[own] = Page { kind, level, right, left: 0, high, log: 0, own, entries: group.to_vec() };
        pages.map.take(own);
        links.push(Entry::to_child(high, own));
    }
    links
}
