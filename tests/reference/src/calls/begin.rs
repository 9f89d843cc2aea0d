//! Begin: answers the number of a new batch, which is that of its begin record.

use super::sound::{slots_suffice, sound};
use super::{Answer, Outcome};
use crate::layout::{Areas, Desk, Kind, Record};
use crate::log::Work;
use crate::sizes::MOST_BATCHES;
use crate::Refusal;

pub fn begin(areas: &Areas, desk: &Desk) -> Outcome {
    match try_begin(areas, desk) {
        Ok(work) => Outcome::done(areas, &work, desk.stored, Vec::new(), Answer::Batch(work.log.last_number())),
        Err(refusal) => Outcome::refused(areas, desk, refusal),
    }
}

fn try_begin(areas: &Areas, desk: &Desk) -> Result<Work, Refusal> {
    if !areas.lengths_are_right() {
        return Err(Refusal::Lengths);
    }
    let mut work = sound(areas, desk).ok_or(Refusal::Unsound)?.work;
    if work.open.list.len() == MOST_BATCHES {
        return Err(Refusal::EightOpen);
    }
    // "Begin needs u + 1 + 32p + 2(b + 1) at most the slots."
    if !slots_suffice(&work, 1, 0, 1) {
        return Err(Refusal::SlotsShort);
    }
    work.write(Record::new(Kind::Begin))?;
    Ok(work)
}
