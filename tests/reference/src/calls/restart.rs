//! Restart: redo all, work out the left links, undo what the open batches have pending, then store the new records.

use super::outcome::store_records;
use super::undo::undo_newest;
use super::{Answer, Outcome};
use crate::layout::{Areas, Desk, Kind};
use crate::left::link_leaves;
use crate::log::{obeys_pending_rule, redo, Update, Work};
use crate::tree::slides_of;
use crate::{Fault, Place, Refusal};

pub fn restart(areas: &Areas) -> Outcome {
    match try_restart(areas) {
        Ok(Restarted { work, stored, answer }) => {
            let stores = store_records(&work, stored);
            Outcome::done(areas, &work, work.log.last_number(), stores, answer)
        }
        Err(fault) => refused(areas, fault.refusal),
    }
}

/// A register after a restart, the number of records that the stable log had before, and the answer.
pub struct Restarted {
    pub work: Work,
    pub stored: u32,
    pub answer: Answer,
}

/// "Restart's 3 to 18 zero the working areas; a refused restart gives an empty desk."
fn refused(areas: &Areas, refusal: Refusal) -> Outcome {
    let mut outcome = Outcome::refused(areas, &Desk::empty(), refusal);
    if refusal != Refusal::Lengths {
        outcome.areas.fill_working(0);
    }
    outcome
}

/// What a restart makes of the stable areas, or what is wrong with them.
pub fn try_restart(areas: &Areas) -> Result<Restarted, Fault> {
    let (mut work, changes) = redo_alone(areas)?;
    let slides = slides_of(&work.pages)?;
    obeys_pending_rule(&work.open, &slides)?;
    // Undo changes the tree, and from here on every change keeps them.
    link_leaves(&mut work.pages);
    let stored = work.log.last_number();
    let ended = end_all(&mut work).map_err(|refusal| short(refusal, &work))?;
    Ok(Restarted { work, stored, answer: Answer::Restarted { ended, changes } })
}

/// Restart's 17 and 18.
fn short(refusal: Refusal, work: &Work) -> Fault {
    let next = work.log.records.len() + 1;
    match refusal {
        Refusal::SlotsShort => {
            Fault::new(refusal, Place::Slot(next), "to end the open batches it is needed, and not lent")
        }
        _ => Fault::new(
            refusal,
            Place::Page(work.pages.count()),
            "to end the open batches a page is needed, and none is free",
        ),
    }
}

/// The stable areas with every change redone and nothing undone, and how many page changes that took. Checks 1, 3, 4, 5.
/// There are no left links yet.
pub fn redo_alone(areas: &Areas) -> Result<(Work, u32), Fault> {
    if !areas.lengths_are_right() {
        return Err(Fault::new(
            Refusal::Lengths,
            Place::Areas,
            "their lengths are wrong, or those of a kind are unequal",
        ));
    }
    let mut work = Work::read(&areas.stable_pages, &areas.stable_log)?;
    let changes = redo(&mut work.pages, &work.log.records)?;
    Ok((work, changes))
}

/// End every open batch; answers how many. Stops where the next record or page does not exist.
fn end_all(work: &mut Work) -> Result<u32, Refusal> {
    let ended = work.open.list.len() as u32;
    let unmarked = work.open.list.iter().filter(|batch| !batch.marked);
    for batch in unmarked.map(|batch| batch.number).collect::<Vec<_>>() {
        work.write_about_batch(Kind::AbortMark, batch)?;
    }
    let nothing_pending = work.open.list.iter().filter(|batch| batch.pending.is_empty());
    for batch in nothing_pending.map(|batch| batch.number).collect::<Vec<_>>() {
        work.write_about_batch(Kind::End, batch)?;
    }
    while let Some((batch, newest)) = largest_due(work) {
        undo_newest(work, batch, newest)?;
        if work.open.find(batch).is_some_and(|open| open.pending.is_empty()) {
            work.write_about_batch(Kind::End, batch)?;
        }
    }
    Ok(ended)
}

/// "Undoes always the largest log number due."
fn largest_due(work: &Work) -> Option<(u32, Update)> {
    let newest = |batch: &crate::log::Batch| batch.pending.last().map(|update| (batch.number, *update));
    work.open.list.iter().filter_map(newest).max_by_key(|(_, update)| update.number)
}
