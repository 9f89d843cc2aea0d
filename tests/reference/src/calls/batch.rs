//! What the calls of a batch ask before they look at keys: lengths, soundness, an open batch, and keys not held.

use super::sound::{sound, Sound};
use crate::layout::{Areas, Desk};
use crate::log::OpenBatches;
use crate::Refusal;
use std::ops::RangeInclusive;

/// Check 1.
pub fn ask_lengths(areas: &Areas) -> Result<(), Refusal> {
    if areas.lengths_are_right() {
        Ok(())
    } else {
        Err(Refusal::Lengths)
    }
}

/// Checks 1, 11 and 12 for a call that only looks, or only undoes.
pub fn enter_to_read(areas: &Areas, desk: &Desk, batch: u32) -> Result<Sound, Refusal> {
    ask_lengths(areas)?;
    let sound = sound(areas, desk).ok_or(Refusal::Unsound)?;
    if sound.work.open.find(batch).is_none() {
        return Err(Refusal::NoBatch);
    }
    Ok(sound)
}

/// The same for a call that writes records other than undos. No call leaves a batch open that has its abort mark, but
/// sound areas may hold one, and the chain then forbids what the call would write.
pub fn enter_to_write(areas: &Areas, desk: &Desk, batch: u32) -> Result<Sound, Refusal> {
    let sound = enter_to_read(areas, desk, batch)?;
    let marked = sound.work.open.find(batch).is_some_and(|open| open.marked);
    if marked {
        return Err(Refusal::NoBatch);
    }
    Ok(sound)
}

/// Check 14: no other open batch has a pending record on a key of the range. (01's held is locked.)
pub fn ask_not_held(open: &OpenBatches, batch: u32, keys: RangeInclusive<u32>) -> Result<(), Refusal> {
    let others = open.list.iter().filter(|other| other.number != batch);
    let held = others.flat_map(|other| &other.pending).any(|update| keys.contains(&update.key));
    if held {
        Err(Refusal::Held)
    } else {
        Ok(())
    }
}
