//! Calls where something ends: the first and last keys of all, and those of leaves with 4 and 14 entries.

use crate::beside::Beside;
use crate::difference::Difference;
use reference::bench::Random;
use reference::calls::Call;
use reference::layout::{Areas, Desk, Page, Pages};
use reference::sizes::{FEWEST_ENTRIES, MOST_ENTRIES, TOP};

/// So many calls, each on what the last one left, on such keys and beside them; then a restart.
pub fn calls_at_edges(
    beside: &mut Beside,
    random: &mut Random,
    mut areas: Areas,
    mut desk: Desk,
    calls: usize,
) -> Result<(), Difference> {
    for number in 0..calls {
        let made = edge_call(random, &areas, &desk);
        let outcome = beside.try_on(&areas, &desk, made);
        let outcome = outcome.map_err(|difference| difference.at(format!("call {number} ({made:?})")))?;
        (areas, desk) = (outcome.areas, outcome.desk);
    }
    beside.try_on(&areas, &Desk::empty(), Call::Restart).map(drop).map_err(|difference| difference.at("a restart"))
}

fn edge_call(random: &mut Random, areas: &Areas, desk: &Desk) -> Call {
    let open: Vec<u32> = desk.rows.iter().map(|row| row.batch).filter(|batch| *batch != 0).collect();
    let Some(batch) = random.pick(&open) else {
        return Call::Begin;
    };
    let key = edge_key(random, areas);
    match random.below(26) {
        0..=3 => Call::Fetch { batch, key },
        4..=6 => Call::Next { batch, key },
        7..=9 => Call::Previous { batch, key },
        10..=14 => Call::Insert { batch, key, value: random.number() },
        15..=18 => Call::Delete { batch, key },
        19 => Call::Commit { batch },
        20 => Call::Abort { batch },
        21 | 22 => Call::Return { batch, mark: edge_mark(random, desk, batch) },
        23 => Call::Mark { batch },
        24 => Call::WriteOut { page: random.below(areas.page_count()) as u32 },
        _ => Call::Begin,
    }
}

/// The batch's begin and last record, what it would undo first, and around these.
fn edge_mark(random: &mut Random, desk: &Desk, batch: u32) -> u32 {
    let row = desk.rows.iter().find(|row| row.batch == batch).copied().unwrap_or_default();
    let mark = [batch, row.last, row.next_to_undo, row.next_to_undo][random.below(4)];
    mark.wrapping_add([0, 0, 1, TOP][random.below(4)])
}

fn edge_key(random: &mut Random, areas: &Areas) -> u32 {
    let pages = Pages::read_working(&areas.working_pages).expect("pages");
    let at_its_end = |page: &&Page| page.is_leaf() && [FEWEST_ENTRIES, MOST_ENTRIES].contains(&page.entries.len());
    let leaves: Vec<&Page> = pages.list.iter().filter(at_its_end).collect();
    let Some(leaf) = random.pick(&leaves).filter(|_| !random.once_in(4)) else {
        return [0, 1, TOP - 1, TOP][random.below(4)];
    };
    let (first, last) = (leaf.entries[0].key, leaf.entries[leaf.entries.len() - 1].key);
    [first, last, first.wrapping_sub(1), last.wrapping_add(1), first + 1, leaf.high, leaf.high.wrapping_add(1)]
        [random.below(7)]
}
