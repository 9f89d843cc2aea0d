//! Step 3's second half: a child of 4 entries is joined with a neighbour under the same parent before it is entered.

use super::change::{link, merge, redistribute, unlink};
use super::descent::{half_covering, has_indirect_after, split_if_full};
use crate::layout::entry_place;
use crate::log::Work;
use crate::sizes::MOST_ENTRIES;
use crate::Refusal;

/// Join the child that covers the key with its neighbour; answers the page that covers the key then.
pub fn fill_up(work: &mut Work, parent: usize, key: u32) -> Result<usize, Refusal> {
    // After a split the child may be the last in its half.
    let parent = split_if_full(work, parent, key)?;
    let place = entry_place(&work.page(parent).entries, key);
    let is_last = place + 1 == work.page(parent).entries.len();
    let left_place = if is_last {
        left_neighbour(work, parent, place)?
    } else {
        right_neighbour(work, parent, place + 1)?;
        place
    };
    join(work, parent, left_place, key)
}

/// An indirect page after the right neighbour is linked first: once that is unlinked, two would adjoin.
fn right_neighbour(work: &mut Work, parent: usize, place: usize) -> Result<(), Refusal> {
    if has_indirect_after(work, parent, place) {
        link(work, parent, place)?;
    }
    Ok(())
}

/// Answers the place of the left neighbour's entry. Where that page is indirect, linking it gives it the entry at the
/// child's old place.
fn left_neighbour(work: &mut Work, parent: usize, place: usize) -> Result<usize, Refusal> {
    if has_indirect_after(work, parent, place - 1) {
        link(work, parent, place - 1)?;
        return Ok(place);
    }
    Ok(place - 1)
}

/// "Join means merge if together they hold at most 14; otherwise redistribute, then link again."
fn join(work: &mut Work, parent: usize, place: usize, key: u32) -> Result<usize, Refusal> {
    let left = work.page(parent).entries[place].child();
    let right = work.page(parent).entries[place + 1].child();
    unlink(work, parent, place)?;
    if work.page(left).entries.len() + work.page(right).entries.len() <= MOST_ENTRIES {
        merge(work, left, right)?;
        return Ok(left);
    }
    redistribute(work, left, right)?;
    link(work, parent, place)?;
    Ok(half_covering(work, left, key))
}
