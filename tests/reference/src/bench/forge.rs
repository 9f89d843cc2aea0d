//! Forged registers, for demand 1: turned bits, stored images that keep their layout but not their sense, and left links that
//! lead elsewhere.

use super::Random;
use crate::layout::{Areas, Entry, Kind, Page, PageKind, Pages, Record};
use crate::log::{is_empty_slot, Log};
use crate::sizes::{MOST_ENTRIES, ROOT, SLOT_BYTES, TOP};

/// Turn one bit of one area, mostly in the part of a log that is full.
pub fn turn_a_bit(random: &mut Random, areas: &mut Areas) {
    let area = random.below(4);
    let bytes = &mut *areas.each_mut()[area];
    let full = if area < 2 { bytes.len() } else { full_length(bytes) };
    let length = if random.once_in(8) { bytes.len() } else { full };
    if length > 0 {
        bytes[random.below(length)] ^= 1 << random.below(8);
    }
}

fn full_length(log: &[u8]) -> usize {
    log.chunks_exact(SLOT_BYTES).take_while(|slot| !is_empty_slot(slot)).count() * SLOT_BYTES
}

/// Forge the stored image in one or two places. None where it does not keep its layout already, or is empty.
pub fn forge_image(random: &mut Random, areas: &Areas) -> Option<Areas> {
    let mut pages = Pages::read(&areas.stable_pages).ok()?;
    let mut log = Log::read(&areas.stable_log, pages.count()).ok()?;
    for _ in 0..random.within(1, 2) {
        if random.once_in(3) {
            forge_pages(random, &mut pages);
        } else {
            let place = place_to_forge(random, &log.records)?;
            forge_record(random, &mut log.records[place], pages.count());
        }
    }
    let mut forged = areas.clone();
    forged.stable_pages = pages.bytes();
    forged.stable_log = log.bytes();
    Some(forged)
}

/// Mostly one of the tree changes, as redo asks most of them.
fn place_to_forge(random: &mut Random, records: &[Record]) -> Option<usize> {
    let all: Vec<usize> = (0..records.len()).collect();
    let tree_changes: Vec<usize> = (0..records.len()).filter(|place| records[*place].kind >= Kind::Split).collect();
    if random.once_in(4) {
        random.pick(&all)
    } else {
        random.pick(&tree_changes)
    }
}

/// Change one field of a record to another value that its bits hold.
pub fn forge_record(random: &mut Random, record: &mut Record, pages: usize) {
    if record.kind < Kind::Split && random.once_in(2) {
        return forge_batch(random, record);
    }
    let page = random.below(pages);
    match random.below(10) {
        0 => record.a = [0, ROOT, page][random.below(3)],
        1 => record.b = [0, ROOT, record.a, page][random.below(4)],
        2 => record.c = [0, record.a, record.b, page][random.below(4)],
        3 => record.key = [0, TOP, record.key.wrapping_add(1), random.number()][random.below(4)],
        4 => record.second = [0, TOP, record.second.wrapping_sub(1)][random.below(3)],
        5 => record.right = [0, record.b, page, 1023][random.below(4)],
        6 => record.level = [0, 1, 14, 15][random.below(4)],
        7 => drop(record.entries.pop()),
        8 => record.entries.clear(),
        _ => forge_entry(random, &mut record.entries),
    }
    if record.kind >= Kind::Split && random.once_in(10) {
        record.kind = Kind::ALL[random.within(8, 14)];
    }
}

/// Change what a record says of its batch, or what it does there.
fn forge_batch(random: &mut Random, record: &mut Record) {
    match random.below(4) {
        0 => record.batch = random.below(record.own as usize + 1) as u32,
        1 => record.previous = random.below(record.own as usize + 1) as u32,
        2 => record.second ^= 1,
        _ => record.kind = Kind::ALL[random.below(8)],
    }
}

fn forge_entry(random: &mut Random, entries: &mut [Entry]) {
    if entries.is_empty() {
        return;
    }
    let place = random.below(entries.len());
    let other = random.below(entries.len());
    let forged = &mut entries[place];
    match random.below(4) {
        0 => forged.key = forged.key.wrapping_add(1),
        // Entries that do not rise: a search then depends on how it goes.
        1 => entries.swap(place, other),
        2 => forged.value ^= 1 << random.below(32),
        _ => forged.value = random.below(20) as u32,
    }
}

/// Swap some of the entries, or none.
pub fn permute(random: &mut Random, entries: &mut [Entry]) {
    let swaps = if entries.is_empty() { 0 } else { random.below(4) };
    for _ in 0..swaps {
        let (one, other) = (random.below(entries.len()), random.below(entries.len()));
        entries.swap(one, other);
    }
}

/// Give a working leaf, in the tree or not, another left link: none, its own number, its right neighbour's, or any. None
/// where the pages do not keep their layout already.
pub fn forge_left_link(random: &mut Random, areas: &Areas) -> Option<Areas> {
    let mut pages = Pages::read_working(&areas.working_pages).ok()?;
    let leaves: Vec<usize> = (0..pages.count()).filter(|page| pages.list[*page].is_leaf()).collect();
    let leaf = &mut pages.list[random.pick(&leaves)?];
    leaf.left = some_left_link(random, leaf);
    Some(Areas { working_pages: pages.bytes(), ..areas.clone() })
}

fn some_left_link(random: &mut Random, page: &Page) -> usize {
    [0, page.own, page.right, random.below(20), random.below(1024)][random.below(5)]
}

/// Change what a page is or holds, in a way that the layout mostly allows. The map stays.
pub fn forge_page(random: &mut Random, page: &mut Page) {
    match random.below(9) {
        _ if page.kind == PageKind::Map => {}
        8 => page.left = some_left_link(random, page),
        7 => page.entries.splice(..0, vec![Entry::new(0, 1); MOST_ENTRIES - page.entries.len()]).for_each(drop),
        0 => *page = Page::free(page.own, page.log),
        1 => page.entries.truncate(random.below(5)),
        2 => page.high = page.high.wrapping_add([1, u32::MAX][random.below(2)]),
        3 => forge_entry(random, &mut page.entries),
        4 => page.right = [0, page.own, random.below(20)][random.below(3)],
        _ => {
            page.level = random.below(3);
            page.kind = PageKind::at_level(page.level);
        }
    }
}

/// Change a page in a way that the layout allows: its log number above all, as that says what is redone.
fn forge_pages(random: &mut Random, pages: &mut Pages) {
    let used: Vec<usize> = (0..pages.count()).filter(|page| pages.map.is_used(*page)).collect();
    let Some(place) = random.pick(&used) else {
        return;
    };
    let page = &mut pages.list[place];
    match random.below(9) {
        0..=2 => page.log = random.below(page.log as usize + 2) as u32,
        3 if page.is_leaf() => forge_entry(random, &mut page.entries),
        4 if place > ROOT => *page = Page::free(place, page.log),
        5 if place >= ROOT => page.right = random.below(1024),
        6 if place >= ROOT => page.high = page.high.wrapping_sub(1),
        // Out of order, and without its last changes, which then are redone there.
        7 => {
            permute(random, &mut page.entries);
            page.log -= random.below(page.log.min(20) as usize + 1) as u32;
        }
        _ => pages.map.take(random.below(pages.count())),
    }
}
