//! Commit and abort: the two ends of a batch. Neither is refused for room, as the reserves keep it free.

use super::batch::enter_to_write;
use super::outcome::store_records;
use super::undo::undo_above;
use super::{Answer, Outcome};
use crate::layout::{Areas, Desk, Kind};
use crate::log::Work;
use crate::Refusal;

/// "Commit logs and then stores every unstored record, in order."
pub fn commit(areas: &Areas, desk: &Desk, batch: u32) -> Outcome {
    match try_commit(areas, desk, batch) {
        Ok(work) => {
            let stores = store_records(&work, desk.stored);
            Outcome::done(areas, &work, work.log.last_number(), stores, Answer::Done)
        }
        Err(refusal) => Outcome::refused(areas, desk, refusal),
    }
}

fn try_commit(areas: &Areas, desk: &Desk, batch: u32) -> Result<Work, Refusal> {
    let mut work = enter_to_write(areas, desk, batch)?.work;
    work.write_about_batch(Kind::Commit, batch)?;
    Ok(work)
}

/// "Abort writes a 7, undoes newest first, always from the root, then writes an 8."
pub fn abort(areas: &Areas, desk: &Desk, batch: u32) -> Outcome {
    match try_abort(areas, desk, batch) {
        Ok(work) => Outcome::done(areas, &work, desk.stored, Vec::new(), Answer::Done),
        Err(refusal) => Outcome::refused(areas, desk, refusal),
    }
}

fn try_abort(areas: &Areas, desk: &Desk, batch: u32) -> Result<Work, Refusal> {
    let mut work = enter_to_write(areas, desk, batch)?.work;
    take_back(&mut work, batch).map_err(|_| Refusal::UndoShort)?;
    Ok(work)
}

/// Undo all that an open batch has pending, and end it.
pub fn take_back(work: &mut Work, batch: u32) -> Result<(), Refusal> {
    work.write_about_batch(Kind::AbortMark, batch)?;
    undo_above(work, batch, 0)?;
    work.write_about_batch(Kind::End, batch)
}
