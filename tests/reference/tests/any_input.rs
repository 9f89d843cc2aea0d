//! Demand 1: every call finishes on every input, and what each refusal leaves is what 01 says. Tried on areas of any
//! lengths and bytes, on registers with turned bits, and on forged logs and pages that keep their layout.

mod common;

use common::each_event;
use reference::bench::any::{any_areas, any_call, any_desk};
use reference::bench::forge::{forge_image, turn_a_bit};
use reference::bench::{run, Instrument, Random, Shape};
use reference::calls::{call, sound, Call, Outcome};
use reference::layout::{Areas, Desk};
use reference::sizes::DESK_NUMBERS;
use reference::Refusal;
use std::collections::BTreeMap;

/// How often each answer was met: 0, or the refusal's number.
type Met = BTreeMap<u8, usize>;

/// "A refusal changes nothing, except that restart's 3 to 18 zero the working areas; a refused format or restart gives an
/// empty desk", and a refused loading. A call that passes leaves sound areas, and its stores are all that changed in the stable ones.
fn check_outcome(areas: &Areas, desk: &Desk, made: Call, outcome: &Outcome) {
    let mut expected = areas.clone();
    for store in &outcome.stores {
        expected.carry_out(store);
    }
    assert!(expected.stable_pages == outcome.areas.stable_pages && expected.stable_log == outcome.areas.stable_log);
    let Err(refusal) = outcome.answer else {
        assert!(sound(&outcome.areas, &outcome.desk).is_some(), "{made:?} leaves sound areas");
        return;
    };
    assert!(outcome.stores.is_empty());
    if made == Call::Restart && refusal != Refusal::Lengths {
        expected.fill_working(0);
    }
    assert!(outcome.areas == expected, "{made:?} refused by {refusal:?}");
    assert_eq!(outcome.desk, if made.starts_anew() { Desk::empty() } else { *desk });
}

fn try_call(areas: &Areas, desk: &Desk, made: Call, met: &mut Met) {
    let outcome = call(areas, desk, made);
    check_outcome(areas, desk, made, &outcome);
    *met.entry(outcome.answer.map_or_else(Refusal::number, |_| 0)).or_default() += 1;
}

fn check_met(met: &Met, wanted: &[u8]) {
    assert!(wanted.iter().all(|number| met.contains_key(number)), "{met:?}");
}

#[test]
fn areas_of_any_lengths_and_bytes() {
    let mut random = Random::new(11);
    let mut met = Met::new();
    for _ in 0..1500 {
        let (areas, desk) = (any_areas(&mut random), any_desk(&mut random));
        let made = any_call(&mut random);
        try_call(&areas, &desk, made, &mut met);
    }
    check_met(&met, &[0, 1, 2, 3, 7, 8, 9, 11, 18]);
}

/// Some registers in the middle of their work.
fn registers(seeds: std::ops::Range<u64>, each: usize) -> Vec<Instrument> {
    let mut registers = Vec::new();
    for seed in seeds {
        let mut events = 0;
        each_event(&run(Shape::Plain, seed, 600), |_, _, after| {
            events += 1;
            if events % each == 0 {
                registers.push(after.clone());
            }
        });
    }
    registers
}

#[test]
fn registers_with_turned_bits() {
    let mut random = Random::new(12);
    let mut met = Met::new();
    for register in registers(400..410, 7) {
        let mut damaged = register.clone();
        for _ in 0..random.within(1, 2) {
            damage(&mut random, &mut damaged);
        }
        for made in [any_call(&mut random), Call::Begin, Call::Restart] {
            try_call(&damaged.areas, &damaged.desk, made, &mut met);
        }
    }
    check_met(&met, &[0, 3, 4, 11]);
}

/// Damage an area, or one number of the desk.
fn damage(random: &mut Random, register: &mut Instrument) {
    if random.once_in(5) {
        let mut numbers = register.desk.numbers();
        numbers[random.below(DESK_NUMBERS)] ^= 1 << random.below(12);
        register.desk = Desk::of_numbers(numbers);
    } else {
        turn_a_bit(random, &mut register.areas);
    }
}

#[test]
fn forged_images_that_keep_their_layout() {
    let mut random = Random::new(13);
    let mut met = Met::new();
    for register in registers(420..432, 5) {
        for _ in 0..6 {
            if let Some(areas) = forge_image(&mut random, &register.areas) {
                try_call(&areas, &Desk::empty(), Call::Restart, &mut met);
            }
        }
    }
    check_met(&met, &[0, 4, 5, 6]);
}
