//! Sound (refusal 11): what every call that works on the working areas asks of them and of the desk first.

use crate::layout::{Areas, Desk, Entry};
use crate::left::left_links_agree;
use crate::log::{is_empty_slot, obeys_pending_rule, Work};
use crate::sizes::{BATCH_RECORDS, SLOT_BYTES, UPDATE_PAGES, UPDATE_RECORDS};
use crate::tree::slides_of;

/// Sound working areas, taken apart.
#[derive(Clone, Debug, PartialEq, Eq)]
pub struct Sound {
    pub work: Work,
    /// The entries of all leaves, by rising key.
    pub slides: Vec<Entry>,
}

/// None if the working areas or the desk are not sound. The lengths are right.
pub fn sound(areas: &Areas, desk: &Desk) -> Option<Sound> {
    let work = Work::read_working(&areas.working_pages, &areas.working_log).ok()?;
    let slides = slides_of(&work.pages).ok()?;
    let holds = left_links_agree(&work.pages)
        && obeys_pending_rule(&work.open, &slides).is_ok()
        && *desk == work.open.desk(work.log.last_number(), desk.stored)
        && stored_count_is_right(areas, desk)
        && reserves_hold(&work);
    holds.then_some(Sound { work, slides })
}

/// "The stored count is the number of full stable slots, and these equal the working ones." They are the first ones.
fn stored_count_is_right(areas: &Areas, desk: &Desk) -> bool {
    if desk.stored > desk.written {
        return false;
    }
    let stored = desk.stored as usize * SLOT_BYTES;
    areas.stable_log[..stored] == areas.working_log[..stored] && is_empty_slot(&areas.stable_log[stored..])
}

/// "u + 32p + 2b at most the slots and at least 7p free pages": every pending update can still be undone.
fn reserves_hold(work: &Work) -> bool {
    slots_suffice(work, 0, 0, 0) && pages_suffice(work, 0, 0)
}

/// Whether the slots take `records` more now, and the reserves of so many more updates and batches besides.
pub fn slots_suffice(work: &Work, records: usize, updates: usize, batches: usize) -> bool {
    let pending = work.open.pending_count() + updates;
    let open = work.open.list.len() + batches;
    work.log.records.len() + records + UPDATE_RECORDS * pending + BATCH_RECORDS * open <= work.log.slots
}

/// Whether the free pages give `pages` now, and the reserve of so many more updates besides.
pub fn pages_suffice(work: &Work, pages: usize, updates: usize) -> bool {
    pages + UPDATE_PAGES * (work.open.pending_count() + updates) <= work.pages.free_count()
}
