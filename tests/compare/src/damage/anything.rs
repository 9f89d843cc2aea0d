//! Anything at all: areas of any lengths and bytes, images that keep their layout but not their sense, and images past the
//! reserves, where a restart runs short.

use super::busy::busy;
use super::{restart, Tried};
use crate::beside::Beside;
use reference::bench::any::{any_areas, any_call, any_desk};
use reference::bench::forge::forge_image;
use reference::bench::{full_register, image_of, run, Instrument, Random, Shape};

pub fn anything() -> Tried {
    let mut beside = Beside::new();
    let mut random = Random::new(21);
    for turn in 0..3000 {
        let (areas, desk, made) = (any_areas(&mut random), any_desk(&mut random), any_call(&mut random));
        let tried = beside.try_on(&areas, &desk, made);
        tried.map_err(|difference| difference.at(format!("{made:?} on anything, turn {turn}")))?;
    }
    Ok(beside.tally)
}

/// Forged images of the busy register, and of registers from the middle of some runs.
pub fn forged_images() -> Tried {
    let mut beside = Beside::new();
    let mut random = Random::new(22);
    let mut registers = vec![busy().register; 60];
    for seed in 31..37 {
        registers.extend(registers_of(seed));
    }
    for (place, register) in registers.iter().enumerate() {
        for turn in 0..40 {
            if let Some(forged) = forge_image(&mut random, &register.areas) {
                restart(&mut beside, &forged, format!("register {place}, forged image {turn}"))?;
            }
        }
    }
    Ok(beside.tally)
}

/// A run's register after every so many commands.
fn registers_of(seed: u64) -> Vec<Instrument> {
    let mut instrument = Instrument::default();
    let mut registers = Vec::new();
    for (place, command) in run(Shape::Plain, seed, 600).commands.iter().enumerate() {
        instrument.run(command);
        if place % 60 == 59 {
            registers.push(instrument.clone());
        }
    }
    registers
}

/// Restart's 17 and 18, to the slot and to the page.
pub fn shortage() -> Tried {
    let mut beside = Beside::new();
    let full = full_register();
    let written = full.log.records.len();
    for pages in 16..19 {
        for slots in written..written + 8 {
            restart(
                &mut beside,
                &image_of(&full, pages, slots),
                format!("a full register in {pages} pages, {slots} slots"),
            )?;
        }
    }
    Ok(beside.tally)
}
