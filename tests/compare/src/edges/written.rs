//! Registers whose records are written without going through the calls, as each call judges the whole log again. What
//! stands in their areas is what the calls would have left.

use crate::beside::Beside;
use crate::damage::Tried;
use crate::difference::Difference;
use reference::calls::{write_update, Answer, Call};
use reference::layout::{Areas, Desk, Entry, Kind, Pages, Record};
use reference::log::Work;
use reference::sizes::{MOST_PAGES, MOST_SLOTS, SLOT_BYTES};

pub fn begin(work: &mut Work) -> u32 {
    work.write(Record::new(Kind::Begin)).expect("a slot is left");
    work.log.last_number()
}

pub fn commit(work: &mut Work, batch: u32) {
    work.write_about_batch(Kind::Commit, batch).expect("a slot is left");
}

pub fn insert(work: &mut Work, batch: u32, key: u32) {
    write_update(work, batch, Kind::Insert, Entry::new(key, key ^ 1)).expect("room");
}

pub fn delete(work: &mut Work, batch: u32, key: u32) {
    write_update(work, batch, Kind::Delete, Entry::new(key, key ^ 1)).expect("room");
}

/// The register with its pages written out long ago, or just now, and all records stored.
pub fn register(work: &Work, stable_pages: &Pages) -> (Areas, Desk) {
    let (pages, log) = (work.pages.bytes(), work.log.bytes());
    let stable_pages = stable_pages.stored().bytes();
    let areas = Areas { working_pages: pages, stable_pages, working_log: log.clone(), stable_log: log };
    let written = work.log.last_number();
    (areas, work.open.desk(written, written))
}

/// The same with no record stored since the first `stored`.
pub fn stored_up_to(mut areas: Areas, mut desk: Desk, stored: usize) -> (Areas, Desk) {
    areas.stable_log[stored * SLOT_BYTES..].fill(0);
    desk.stored = stored as u32;
    (areas, desk)
}

/// Slides put in by rising keys and taken out again, wave after wave: most records change a page, and many change three.
fn worn() -> Work {
    let mut work = Work::formatted(MOST_PAGES, MOST_SLOTS);
    let (mut next, mut oldest, mut growing) = (1, 1, true);
    while work.log.records.len() + 600 < MOST_SLOTS {
        let batch = begin(&mut work);
        for _ in 0..60 {
            if growing {
                insert(&mut work, batch, 16 * next);
                next += 1;
            } else {
                delete(&mut work, batch, 16 * oldest);
                oldest += 1;
            }
        }
        commit(&mut work, batch);
        growing = if growing { work.pages.free_count() > 100 } else { next - oldest < 200 };
    }
    work
}

/// A restart that redoes more page changes than 14 bits count.
pub fn largest_redo() -> Tried {
    let mut beside = Beside::new();
    let work = worn();
    let (areas, _) = register(&work, &Pages::formatted(MOST_PAGES));
    let outcome = beside.try_on(&areas, &Desk::empty(), Call::Restart)?;
    match outcome.answer {
        Ok(Answer::Restarted { changes, .. }) if changes >= 1 << 14 => Ok(beside.tally),
        answer => Err(Difference::new(format!("the register is not worn enough: {answer:?}"))),
    }
}
