//! Anything at all: calls with any numbers, areas of any lengths and bytes, any desk. For demand 1.

use super::Random;
use crate::calls::{Call, Columns};
use crate::layout::{Areas, Desk};
use crate::sizes::{DESK_NUMBERS, FEWEST_PAGES, FEWEST_SLOTS, MOST_PAGES, MOST_SLOTS, PAGE_BYTES, SLOT_BYTES};

pub fn any_call(random: &mut Random) -> Call {
    let (batch, key, value) = (random.below(40) as u32, [0, random.number()][random.below(2)], random.number());
    match random.below(14) {
        0 => Call::Format,
        1 => Call::Begin,
        2 => Call::Fetch { batch, key },
        3 => Call::Next { batch, key },
        4 => Call::Previous { batch, key },
        5 => Call::Insert { batch, key, value },
        6 => Call::Delete { batch, key },
        7 => Call::Commit { batch },
        8 => Call::Abort { batch },
        9 => Call::Mark { batch },
        10 => Call::Return { batch, mark: random.below(40) as u32 },
        11 => Call::WriteOut { page: random.below(60) as u32 },
        12 => Call::Load { columns: any_columns(random) },
        _ => Call::Restart,
    }
}

/// Mostly of equal lengths, and mostly rising from above 0.
fn any_columns(random: &mut Random) -> Columns {
    let size = [0, 1, 14, 15, random.below(600)][random.below(5)];
    let apart = [1, 1, 2, 0][random.below(4)];
    let first = random.once_in(4);
    let key = |place: usize| u32::from(!first) + apart * place as u32;
    let values = if random.once_in(8) { size + 1 } else { size };
    Columns::new((0..size).map(key).collect(), (0..values).map(|_| random.number()).collect())
}

/// Mostly of right and equal lengths.
pub fn any_areas(random: &mut Random) -> Areas {
    let pages = any_length(random, PAGE_BYTES, FEWEST_PAGES, MOST_PAGES);
    let log = any_length(random, SLOT_BYTES, FEWEST_SLOTS, MOST_SLOTS);
    let other_pages = if random.once_in(20) { pages + PAGE_BYTES } else { pages };
    let other_log = if random.once_in(20) { log + SLOT_BYTES } else { log };
    Areas {
        working_pages: any_bytes(random, pages),
        stable_pages: any_bytes(random, other_pages),
        working_log: any_bytes(random, log),
        stable_log: any_bytes(random, other_log),
    }
}

pub fn any_desk(random: &mut Random) -> Desk {
    Desk::of_numbers(std::array::from_fn::<u32, DESK_NUMBERS, _>(|_| [0, 1, random.number()][random.below(3)]))
}

/// Mostly a right length; else none, one too short or too long, or one that is no whole number of units.
fn any_length(random: &mut Random, unit: usize, fewest: usize, most: usize) -> usize {
    match random.below(40) {
        0 => 0,
        1 => unit * (fewest - 1),
        2 => unit * (most + 1),
        3 => unit * fewest + random.below(unit),
        _ => unit * random.within(fewest, fewest + 40),
    }
}

fn any_bytes(random: &mut Random, length: usize) -> Vec<u8> {
    let mut bytes = vec![[0, 0, 0xA5, 0xFF][random.below(4)]; length];
    for _ in 0..random.below(40).min(length) {
        let place = random.below(length);
        bytes[place] = random.next() as u8;
    }
    bytes
}
