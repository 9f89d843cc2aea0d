//! Mark and return: a batch takes back what it did after a mark, and stays open (02, U2).

use super::batch::enter_to_read;
use super::undo::undo_above;
use super::{Answer, Outcome};
use crate::layout::{Areas, Desk};
use crate::log::{Log, Work};
use crate::Refusal;

/// The batch's latest record is its mark; nothing is written for it.
pub fn mark(areas: &Areas, desk: &Desk, batch: u32) -> Outcome {
    match try_mark(areas, desk, batch) {
        Ok(mark) => Outcome::unchanged(areas, desk, Answer::Mark(mark)),
        Err(refusal) => Outcome::refused(areas, desk, refusal),
    }
}

fn try_mark(areas: &Areas, desk: &Desk, batch: u32) -> Result<u32, Refusal> {
    let sound = enter_to_read(areas, desk, batch)?;
    sound.work.open.find(batch).map(|open| open.last).ok_or(Refusal::NoBatch)
}

/// "Undo every pending update it made after that mark while staying open": as an abort undoes, without its 7 and 8.
pub fn return_to(areas: &Areas, desk: &Desk, batch: u32, mark: u32) -> Outcome {
    match try_return(areas, desk, batch, mark) {
        Ok(work) => Outcome::done(areas, &work, desk.stored, Vec::new(), Answer::Done),
        Err(refusal) => Outcome::refused(areas, desk, refusal),
    }
}

/// A batch that has its abort mark may return too: the chain lets undos follow, and a return writes nothing else.
fn try_return(areas: &Areas, desk: &Desk, batch: u32, mark: u32) -> Result<Work, Refusal> {
    let mut work = enter_to_read(areas, desk, batch)?.work;
    if !is_record_of(&work.log, batch, mark) {
        return Err(Refusal::NoMark);
    }
    undo_above(&mut work, batch, mark).map_err(|_| Refusal::UndoShort)?;
    Ok(work)
}

/// Any record of the batch, its begin and what it has taken back too. Changes of the tree are of no batch.
fn is_record_of(log: &Log, batch: u32, number: u32) -> bool {
    log.records.iter().any(|record| record.own == number && record.batch == batch)
}
