//! Damage: stored images with turned bits, with records and pages at wrong places, and anything at all. Every answer is on
//! the call's list and is the model's, and so is every byte that the call leaves.

mod anything;
mod bits;
mod busy;
mod careless;
mod changes;
mod lengths;
mod pages;
mod permuted;
mod records;
mod redone;
mod unsorted;

pub use anything::{anything, forged_images, shortage};
pub use bits::{bits_for_other_calls, bits_of_the_desk, bits_of_the_image, sound_calls, try_bit};
pub use busy::Busy;
pub use careless::careless_registers;
pub use changes::{bits_around_changes, forged_around_changes};
pub use lengths::{lengths_of_areas, lengths_of_desk_and_values};
pub use pages::{mixed_pages, pages_at_wrong_places, stale_pages};
pub use permuted::permuted_around_changes;
pub use records::{repeated_records, swapped_records, torn_records, truncated_logs};
pub use redone::redone_registers;
pub use unsorted::unsorted_registers;

use crate::beside::Beside;
use crate::difference::Difference;
use crate::tally::Tally;
use reference::calls::{Call, Outcome};
use reference::layout::{Areas, Desk};
use std::fmt::Display;

/// A try that found no difference, and what it met.
pub type Tried = Result<Tally, Difference>;

/// Restart a damaged image, by both.
fn restart(beside: &mut Beside, areas: &Areas, what: impl Display) -> Result<Outcome, Difference> {
    beside.try_on(areas, &Desk::empty(), Call::Restart).map_err(|difference| difference.at(what))
}

/// Redo on pages out of order is compared where it is refused, where it leaves a tree and where it leaves none.
fn met_both_sides(tally: Tally) -> Tried {
    match [0, 5, 6].into_iter().find(|reason| !tally.met(Call::Restart, *reason)) {
        Some(reason) => Err(Difference::new(format!("no restart answered {reason}"))),
        None => Ok(tally),
    }
}

/// The page or slot at a place of an area.
fn part(area: &[u8], size: usize, place: usize) -> Vec<u8> {
    area[size * place..][..size].to_vec()
}

fn put(area: &mut [u8], size: usize, place: usize, bytes: &[u8]) {
    area[size * place..][..size].copy_from_slice(bytes);
}
