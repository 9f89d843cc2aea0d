//! Undo of pending updates, newest first, always from the root: the key may long have moved from the page named in the
//! record.

use crate::layout::{Kind, Record};
use crate::log::{Update, Work};
use crate::tree::{go_down, Purpose};
use crate::Refusal;

/// Undo an open batch's pending updates with a number above the mark. An abort undoes all of them: its mark is 0.
pub fn undo_above(work: &mut Work, batch: u32, mark: u32) -> Result<(), Refusal> {
    while let Some(newest) = newest_pending(work, batch).filter(|newest| newest.number > mark) {
        undo_newest(work, batch, newest)?;
    }
    Ok(())
}

fn newest_pending(work: &Work, batch: u32) -> Option<Update> {
    work.open.find(batch)?.pending.last().copied()
}

/// Undo the newest pending update of an open batch that has one.
pub fn undo_newest(work: &mut Work, batch: u32, newest: Update) -> Result<(), Refusal> {
    let (kind, purpose, second) = match newest.kind {
        Kind::Insert => (Kind::UndoInsert, Purpose::Removing, 0),
        _ => (Kind::UndoDelete, Purpose::Adding, newest.value),
    };
    let leaf = go_down(work, newest.key, purpose)?;
    let previous = next_after(work, batch);
    work.write(Record { batch, previous, a: leaf, key: newest.key, second, ..Record::new(kind) })
}

/// "Next to undo after this undo": the pending update before the newest, 0 if none.
fn next_after(work: &Work, batch: u32) -> u32 {
    let pending = work.open.find(batch).map_or(&[][..], |open| &open.pending);
    pending.iter().rev().nth(1).map_or(0, |update| update.number)
}
