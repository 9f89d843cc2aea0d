//! Fetch, next and previous: they only look, and answer as a sorted list of slides would.

use super::batch::{ask_not_held, enter_to_read};
use super::sound::Sound;
use super::{Answer, Outcome};
use crate::layout::{Areas, Desk, Entry};
use crate::sizes::TOP;
use crate::Refusal;
use std::ops::RangeInclusive;

pub fn fetch(areas: &Areas, desk: &Desk, batch: u32, key: u32) -> Outcome {
    answer(areas, desk, try_fetch(areas, desk, batch, key))
}

pub fn next(areas: &Areas, desk: &Desk, batch: u32, key: u32) -> Outcome {
    answer(areas, desk, try_next(areas, desk, batch, key))
}

/// "The mirror of next, with the same rule on held keys" (02, U5).
pub fn previous(areas: &Areas, desk: &Desk, batch: u32, key: u32) -> Outcome {
    answer(areas, desk, try_previous(areas, desk, batch, key))
}

fn answer(areas: &Areas, desk: &Desk, answer: Result<Answer, Refusal>) -> Outcome {
    match answer {
        Ok(answer) => Outcome::unchanged(areas, desk, answer),
        Err(refusal) => Outcome::refused(areas, desk, refusal),
    }
}

fn try_fetch(areas: &Areas, desk: &Desk, batch: u32, key: u32) -> Result<Answer, Refusal> {
    let sound = enter_to_read(areas, desk, batch)?;
    ask_not_held(&sound.work.open, batch, key..=key)?;
    let slide = sound.slides.iter().find(|slide| slide.key == key).ok_or(Refusal::Absent)?;
    Ok(Answer::Value(slide.value))
}

fn try_next(areas: &Areas, desk: &Desk, batch: u32, key: u32) -> Result<Answer, Refusal> {
    let sound = enter_to_read(areas, desk, batch)?;
    // Nothing lies above top, so nothing can be held there.
    let above = key.checked_add(1).ok_or(Refusal::Absent)?;
    let found = sound.slides.iter().find(|slide| slide.key >= above);
    let up_to = found.map_or(TOP, |slide| slide.key);
    step_over(&sound, batch, above..=up_to, found)
}

fn try_previous(areas: &Areas, desk: &Desk, batch: u32, key: u32) -> Result<Answer, Refusal> {
    let sound = enter_to_read(areas, desk, batch)?;
    // Nothing lies below 0, so nothing can be held there.
    let below = key.checked_sub(1).ok_or(Refusal::Absent)?;
    let found = sound.slides.iter().rfind(|slide| slide.key <= below);
    let down_to = found.map_or(0, |slide| slide.key);
    step_over(&sound, batch, down_to..=below, found)
}

/// Checks 14 and 16 of a step to the slide that was found, over these keys, its own among them.
fn step_over(sound: &Sound, batch: u32, keys: RangeInclusive<u32>, found: Option<&Entry>) -> Result<Answer, Refusal> {
    ask_not_held(&sound.work.open, batch, keys)?;
    let slide = found.ok_or(Refusal::Absent)?;
    Ok(Answer::Slide { key: slide.key, value: slide.value })
}
