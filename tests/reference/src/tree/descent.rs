//! Going down to change a key (01's four steps). On the way every indirect page met is linked, so that no page splits
//! while it is indirect, and, when removing, every child of 4 entries is filled up before it is entered.

use super::change::{link, lower, raise, split};
use super::join::fill_up;
use crate::layout::entry_place;
use crate::log::Work;
use crate::sizes::{FEWEST_ENTRIES, ROOT};
use crate::Refusal;

#[derive(Clone, Copy, Debug, PartialEq, Eq)]
pub enum Purpose {
    Adding,
    Removing,
}

/// Answers the leaf that covers the key, with room for one more entry or one to spare.
pub fn go_down(work: &mut Work, key: u32, purpose: Purpose) -> Result<usize, Refusal> {
    // Step 1.
    if work.page(ROOT).right != 0 {
        raise(work)?;
    }
    let mut page = ROOT;
    while work.page(page).is_index() {
        page = step_down(work, page, key, purpose)?;
    }
    // Step 4.
    match purpose {
        Purpose::Adding => split_if_full(work, page, key),
        Purpose::Removing => Ok(page),
    }
}

/// From an index page to its child on the way to the key; from a root that is lowered, to the root again.
fn step_down(work: &mut Work, parent: usize, key: u32, purpose: Purpose) -> Result<usize, Refusal> {
    let (parent, child) = link_if_indirect(work, parent, key)?;
    if purpose == Purpose::Adding {
        return Ok(child);
    }
    // Step 3.
    if parent == ROOT && work.page(ROOT).entries.len() == 1 {
        lower(work)?;
        return Ok(ROOT);
    }
    if work.page(child).entries.len() == FEWEST_ENTRIES {
        return fill_up(work, parent, key);
    }
    Ok(child)
}

/// Step 2: answers the half of the parent and the child, now direct, that cover the key.
fn link_if_indirect(work: &mut Work, parent: usize, key: u32) -> Result<(usize, usize), Refusal> {
    let place = entry_place(&work.page(parent).entries, key);
    if !has_indirect_after(work, parent, place) {
        return Ok((parent, work.page(parent).entries[place].child()));
    }
    let parent = split_if_full(work, parent, key)?;
    let place = entry_place(&work.page(parent).entries, key);
    let child = work.page(parent).entries[place].child();
    link(work, parent, place)?;
    Ok((parent, half_covering(work, child, key)))
}

/// Whether the entry at `place` stands for two pages.
pub fn has_indirect_after(work: &Work, parent: usize, place: usize) -> bool {
    let entry = work.page(parent).entries[place];
    work.page(entry.child()).high < entry.key
}

pub fn split_if_full(work: &mut Work, page: usize, key: u32) -> Result<usize, Refusal> {
    if work.page(page).is_full() {
        split(work, page)?;
    }
    Ok(half_covering(work, page, key))
}

/// The page, or its right neighbour if the key lies above the page's high key.
pub fn half_covering(work: &Work, page: usize, key: u32) -> usize {
    if key <= work.page(page).high {
        page
    } else {
        work.page(page).right
    }
}
