//! Write-out: stores every unstored record, then one page. (It is the flushing of one page, with the log first.)

use super::outcome::store_records;
use super::sound::sound;
use super::{Answer, Outcome};
use crate::layout::{Areas, Desk, Store};
use crate::log::Work;
use crate::Refusal;

pub fn write_out(areas: &Areas, desk: &Desk, page: u32) -> Outcome {
    match check(areas, desk, page) {
        Ok(work) => {
            let page = page as usize;
            let mut stores = store_records(&work, desk.stored);
            stores.push(Store::Page { page, bytes: work.pages.stored().page_bytes(page) });
            Outcome::done(areas, &work, work.log.last_number(), stores, Answer::Done)
        }
        Err(refusal) => Outcome::refused(areas, desk, refusal),
    }
}

/// Any page may be written out: the map, free and never used ones too.
fn check(areas: &Areas, desk: &Desk, page: u32) -> Result<Work, Refusal> {
    if !areas.lengths_are_right() {
        return Err(Refusal::Lengths);
    }
    if page as usize >= areas.page_count() {
        return Err(Refusal::PageNumber);
    }
    Ok(sound(areas, desk).ok_or(Refusal::Unsound)?.work)
}
