//! Exact room, one place short of it and one more, for every formula of 01's reserves, at the smallest and the largest sizes.

use super::written::{begin, commit, insert, register};
use crate::beside::Beside;
use crate::damage::Tried;
use crate::difference::Difference;
use reference::calls::Call;
use reference::layout::{Desk, Kind};
use reference::log::Work;
use reference::sizes::{BATCH_RECORDS, FEWEST_PAGES, MOST_PAGES, MOST_SLOTS, UPDATE_PAGES, UPDATE_RECORDS};

/// Slots for begin, for an update, and for what is open and pending: as many as are needed, one fewer, one more.
pub fn exact_slots() -> Tried {
    let mut beside = Beside::new();
    for (open, pending, slots) in [
        (0, 0, 64),
        (0, 0, 65),
        (1, 0, 68),
        (1, 0, 130),
        (1, 1, 200),
        (2, 3, 300),
        (7, 9, 600),
        (0, 0, 16383),
        (1, 0, MOST_SLOTS),
        (2, 2, MOST_SLOTS),
        (0, 0, MOST_SLOTS),
    ] {
        let for_begin = 1 + UPDATE_RECORDS * pending + BATCH_RECORDS * (open + 1);
        let for_update = UPDATE_RECORDS + UPDATE_RECORDS * (pending + 1) + BATCH_RECORDS * open;
        let reserved = UPDATE_RECORDS * pending + BATCH_RECORDS * open;
        for needed in [for_begin, for_update, reserved] {
            for left in [needed + 1, needed, needed.max(1) - 1] {
                if left <= slots && left + BATCH_RECORDS >= reserved {
                    let used = slots - left;
                    all_calls(&mut beside, MOST_PAGES.min(16 + 8 * pending + 8), slots, used, open, pending).map_err(
                        |difference| {
                            difference.at(format!("{slots} slots, {used} used, {open} open, {pending} pending"))
                        },
                    )?;
                }
            }
        }
    }
    Ok(beside.tally)
}

/// Free pages for an update and for what is pending: a register of one leaf takes two.
pub fn exact_pages() -> Tried {
    let mut beside = Beside::new();
    for pending in [0, 1, 2, 5, 12] {
        for pages in [15, 16, 17].map(|pages| FEWEST_PAGES.max(pages + UPDATE_PAGES * pending)) {
            let slots = 400 + 40 * pending;
            all_calls(&mut beside, pages, slots, 60, 2, pending)
                .map_err(|difference| difference.at(format!("{pages} pages, {pending} pending")))?;
        }
    }
    Ok(beside.tally)
}

/// A register with so many slots used, batches open and updates pending, as far as a log can have them; and each call on it.
fn all_calls(
    beside: &mut Beside,
    pages: usize,
    slots: usize,
    used: usize,
    open: usize,
    pending: usize,
) -> Result<(), Difference> {
    let mut work = Work::formatted(pages, slots);
    if used > 4 + open + pending {
        let filed = begin(&mut work);
        insert(&mut work, filed, 0);
        commit(&mut work, filed);
    }
    let batches: Vec<u32> = (0..open).map(|_| begin(&mut work)).collect();
    for number in 0..if open == 0 { 0 } else { pending } {
        insert(&mut work, batches[number % open], u32::MAX - number as u32);
    }
    fill_up_to(&mut work, used);
    let (areas, desk) = register(&work, &work.pages);
    let (batch, first) = (batches.first().copied().unwrap_or(0), 0);
    let calls = [
        Call::Begin,
        Call::Insert { batch, key: 77, value: 1 },
        Call::Delete { batch, key: first },
        Call::Fetch { batch, key: u32::MAX },
        Call::Next { batch, key: u32::MAX - 1 },
        Call::Commit { batch },
        Call::Abort { batch },
        Call::Mark { batch },
        Call::Return { batch, mark: batch },
        Call::WriteOut { page: pages as u32 - 1 },
        Call::WriteOut { page: pages as u32 },
    ];
    for made in calls {
        beside.try_on(&areas, &desk, made).map_err(|difference| difference.at(format!("{made:?}")))?;
    }
    beside.try_on(&areas, &Desk::empty(), Call::Restart).map(drop).map_err(|difference| difference.at("a restart"))
}

/// Cases without slides: two records each, or three where they are taken back.
fn fill_up_to(work: &mut Work, used: usize) {
    while work.log.records.len() + 2 <= used {
        let batch = begin(work);
        if (used - work.log.records.len()) % 2 == 0 {
            work.write_about_batch(Kind::AbortMark, batch).expect("a slot is left");
            work.write_about_batch(Kind::End, batch).expect("a slot is left");
        } else {
            commit(work, batch);
        }
    }
}
