//! Insert and delete: go down, then write the update on the leaf that covers the key.

use super::batch::{ask_lengths, ask_not_held, enter_to_write};
use super::sound::{pages_suffice, slots_suffice, Sound};
use super::{Answer, Outcome};
use crate::layout::{Areas, Desk, Entry, Kind, Record};
use crate::log::Work;
use crate::sizes::{UPDATE_PAGES, UPDATE_RECORDS};
use crate::tree::{go_down, Purpose};
use crate::Refusal;

/// "When the barcode reader fails it hands over slide number 0." Only an insert and a loading ask for it (02, U1 and U3).
pub const UNREAD: u32 = 0;

pub fn insert(areas: &Areas, desk: &Desk, batch: u32, key: u32, value: u32) -> Outcome {
    outcome(areas, desk, try_insert(areas, desk, batch, Entry::new(key, value)))
}

pub fn delete(areas: &Areas, desk: &Desk, batch: u32, key: u32) -> Outcome {
    outcome(areas, desk, try_delete(areas, desk, batch, key))
}

fn outcome(areas: &Areas, desk: &Desk, work: Result<Work, Refusal>) -> Outcome {
    match work {
        Ok(work) => Outcome::done(areas, &work, desk.stored, Vec::new(), Answer::Done),
        Err(refusal) => Outcome::refused(areas, desk, refusal),
    }
}

fn try_insert(areas: &Areas, desk: &Desk, batch: u32, slide: Entry) -> Result<Work, Refusal> {
    ask_lengths(areas)?;
    if slide.key == UNREAD {
        return Err(Refusal::Unread);
    }
    let sound = enter_to_write(areas, desk, batch)?;
    ask_not_held(&sound.work.open, batch, slide.key..=slide.key)?;
    if find(&sound, slide.key).is_some() {
        return Err(Refusal::Present);
    }
    update(sound.work, batch, Kind::Insert, slide)
}

fn try_delete(areas: &Areas, desk: &Desk, batch: u32, key: u32) -> Result<Work, Refusal> {
    let sound = enter_to_write(areas, desk, batch)?;
    ask_not_held(&sound.work.open, batch, key..=key)?;
    let slide = find(&sound, key).ok_or(Refusal::Absent)?;
    update(sound.work, batch, Kind::Delete, slide)
}

fn find(sound: &Sound, key: u32) -> Option<Entry> {
    sound.slides.iter().copied().find(|slide| slide.key == key)
}

/// One update of an open batch, whose key is there or not as its kind wants.
pub fn update(mut work: Work, batch: u32, kind: Kind, slide: Entry) -> Result<Work, Refusal> {
    // "An update needs u + 32 + 32(p + 1) + 2b at most the slots, and 7 + 7(p + 1) free pages": its own room, and the
    // room to undo it later.
    if !slots_suffice(&work, UPDATE_RECORDS, 1, 0) {
        return Err(Refusal::SlotsShort);
    }
    if !pages_suffice(&work, UPDATE_PAGES, 1) {
        return Err(Refusal::PagesShort);
    }
    write_update(&mut work, batch, kind, slide)?;
    Ok(work)
}

/// The same without asking for the room to undo it.
pub fn write_update(work: &mut Work, batch: u32, kind: Kind, slide: Entry) -> Result<(), Refusal> {
    let purpose = if kind == Kind::Insert { Purpose::Adding } else { Purpose::Removing };
    let leaf = go_down(work, slide.key, purpose)?;
    let previous = work.open.find(batch).map_or(0, |open| open.last);
    work.write(Record { batch, previous, a: leaf, key: slide.key, second: slide.value, ..Record::new(kind) })
}
