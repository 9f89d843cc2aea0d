//! Entries out of order around each page change: the page's are permuted, and the record is about some of them. Merges and
//! redistributions move few entries or none.

use super::changes::{around_changes, Alone};
use super::{met_both_sides, Tried};
use crate::difference::Difference;
use reference::bench::forge::permute;
use reference::bench::Random;
use reference::layout::{Entry, Kind, Page, Record};
use reference::sizes::{MAP, MOST_ENTRIES};

/// How often the entries of each page are permuted.
const PERMUTED: usize = 300;

/// A key beside which entries are moved where the page has none.
const ANY_KEY: u32 = 100;

pub fn permuted_around_changes() -> Tried {
    around_changes(permute_alone).and_then(met_both_sides)
}

/// Where several pages lack the record, each one has its turn alone.
fn permute_alone(alone: &mut Alone) -> Result<(), Difference> {
    if alone.lacking.len() > 1 || alone.lacking[0] == MAP {
        return Ok(());
    }
    let mut random = Random::new(8);
    for turn in 0..PERMUTED {
        let (mut record, mut page) = (alone.last().clone(), alone.before.clone());
        if record.kind == Kind::Insert && page.entries.is_empty() {
            page.entries = around(record.key);
        }
        if random.once_in(3) {
            page.entries.truncate(random.below(5));
        }
        permute(&mut random, &mut page.entries);
        aim(&mut random, &mut record, &mut page);
        alone.restart_with(&record, &page, format!("entries permuted, turn {turn}"))?;
    }
    Ok(())
}

/// Make the record one about entries of this page, so that what else its row asks mostly holds.
fn aim(random: &mut Random, record: &mut Record, page: &mut Page) {
    if page.entries.is_empty() && !matches!(record.kind, Kind::Merge | Kind::Redistribute) {
        return;
    }
    match record.kind {
        Kind::Insert | Kind::Delete | Kind::UndoInsert | Kind::UndoDelete => {
            let place = random.below(page.entries.len());
            if random.once_in(2) {
                page.entries[place].key = record.key;
            }
        }
        Kind::Link => aim_link(random, record, &page.entries),
        Kind::Unlink => aim_unlink(random, record, &page.entries),
        Kind::Split if page.is_full() => {
            record.entries = page.entries[MOST_ENTRIES / 2..].to_vec();
            record.key = page.entries[MOST_ENTRIES / 2 - 1].key;
        }
        Kind::Raise | Kind::Lower => record.entries.clone_from(&page.entries),
        Kind::Merge | Kind::Redistribute if page.own == record.a => aim_move_on_a(random, record, page),
        Kind::Merge => record.entries.clone_from(&page.entries),
        Kind::Redistribute => aim_redistribute_on_b(random, record, page),
        _ => {}
    }
}

/// The new bound at or between the neighbours of some entry.
fn aim_link(random: &mut Random, record: &mut Record, entries: &[Entry]) {
    let place = random.below(entries.len());
    let before = if place == 0 { 0 } else { entries[place - 1].key };
    (record.second, record.b) = (entries[place].key, entries[place].child());
    let bounds = [before, before.wrapping_add(1), record.second.wrapping_sub(1), record.second];
    record.key = bounds[random.below(bounds.len())];
}

/// Two entries side by side.
fn aim_unlink(random: &mut Random, record: &mut Record, entries: &[Entry]) {
    if entries.len() > 1 {
        let place = random.below(entries.len() - 1);
        (record.key, record.b) = (entries[place].key, entries[place].child());
        (record.second, record.c) = (entries[place + 1].key, entries[place + 1].child());
    }
}

/// Entries that come after A's last one, or nearly; of a redistribution also entries that A gives.
fn aim_move_on_a(random: &mut Random, record: &mut Record, page: &Page) {
    if record.kind == Kind::Redistribute && random.once_in(2) {
        let kept = page.entries.len() - random.below(4).min(page.entries.len());
        record.entries = page.entries[kept..].to_vec();
        record.key = page.entries[..kept].last().map_or(0, |entry| entry.key);
        return;
    }
    let first = beside(random, page.entries.last());
    record.entries = rising(first, random.below(4));
    if record.kind == Kind::Redistribute {
        record.key = record.entries.last().or(page.entries.last()).map_or(0, |entry| entry.key);
    }
}

/// Entries that come before B's first one, or nearly, or entries that B gives.
fn aim_redistribute_on_b(random: &mut Random, record: &mut Record, page: &Page) {
    let count = random.below(4);
    if random.once_in(2) {
        record.entries = page.entries[..count.min(page.entries.len())].to_vec();
        record.key = record.entries.iter().map(|entry| entry.key).max().unwrap_or(0);
        return;
    }
    let last = beside(random, page.entries.first()).max(ANY_KEY);
    record.entries = rising(last - count.saturating_sub(1) as u32, count);
    record.key = last - ANY_KEY / 2;
}

/// The entry's key, or the one below or above it.
fn beside(random: &mut Random, entry: Option<&Entry>) -> u32 {
    let key = entry.map_or(ANY_KEY, |entry| entry.key);
    key.wrapping_add([0, 1, u32::MAX][random.below(3)])
}

/// Some slides with lower and higher keys than this.
fn around(key: u32) -> Vec<Entry> {
    rising(key.saturating_sub(3), 7).into_iter().filter(|entry| entry.key != key).collect()
}

/// So many entries, with a child that every index page may have.
fn rising(first: u32, count: usize) -> Vec<Entry> {
    (0..count as u32).map(|more| Entry::to_child(first.saturating_add(more), 9)).collect()
}
