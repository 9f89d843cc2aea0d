//! Registers that no call leaves but that may be sound: a stored image, forged or not, with its changes redone and nothing
//! undone. Batches are open that have their abort mark or are undone in part, and forged pages stand in the tree.

use super::Tried;
use crate::beside::Beside;
use crate::difference::Difference;
use reference::bench::any::any_call;
use reference::bench::forge::forge_image;
use reference::bench::{run, Instrument, Random, Shape};
use reference::calls::{redo_alone, Call};
use reference::layout::{Areas, Desk, Pages, Record};
use reference::left::link_leaves;
use reference::sizes::SLOT_BYTES;
use reference::tree::slides_of;

/// How many calls each register gets.
const CALLS: usize = 12;

pub fn redone_registers() -> Tried {
    let mut beside = Beside::new();
    let mut random = Random::new(23);
    for seed in 41..53 {
        for (place, image) in images_of(seed).iter().enumerate() {
            let forged = if random.once_in(2) { forge_image(&mut random, image) } else { None };
            let Some((areas, desk)) = redone(forged.as_ref().unwrap_or(image)) else {
                continue;
            };
            try_calls(&mut beside, &mut random, areas, desk, CALLS)
                .map_err(|difference| difference.at(format!("run plain {seed}, image {place}")))?;
        }
    }
    Ok(beside.tally)
}

/// Make so many calls, each on what the last one left.
pub fn try_calls(
    beside: &mut Beside,
    random: &mut Random,
    mut areas: Areas,
    mut desk: Desk,
    calls: usize,
) -> Result<(), Difference> {
    for call in 0..calls {
        let made = some_call(random, &areas, &desk);
        let outcome = beside.try_on(&areas, &desk, made);
        let outcome = outcome.map_err(|difference| difference.at(format!("call {call} ({made:?})")))?;
        (areas, desk) = (outcome.areas, outcome.desk);
    }
    Ok(())
}

/// A run's stored images: those that its cuts leave, and every so many commands one more.
fn images_of(seed: u64) -> Vec<Areas> {
    let mut instrument = Instrument::default();
    let mut images = Vec::new();
    for (place, command) in run(Shape::Plain, seed, 600).commands.iter().enumerate() {
        let was_cut = instrument.run(command).is_some_and(|event| event.was_cut);
        if was_cut || place % 40 == 39 {
            images.push(instrument.areas.clone());
        }
    }
    images
}

/// Working areas and a desk as they are between redo and undo, once the left links are worked out.
fn redone(image: &Areas) -> Option<(Areas, Desk)> {
    let (mut work, _) = redo_alone(image).ok()?;
    link_leaves(&mut work.pages);
    let stored = work.log.last_number();
    let areas = Areas { working_pages: work.pages.bytes(), working_log: image.stable_log.clone(), ..image.clone() };
    Some((areas, work.open.desk(stored, stored)))
}

/// Mostly one of the batch's records.
fn some_mark(random: &mut Random, areas: &Areas, batch: u32) -> u32 {
    let records = areas.working_log.chunks_exact(SLOT_BYTES).filter_map(Record::read);
    let its_own: Vec<u32> = records.filter(|record| record.batch == batch).map(|record| record.own).collect();
    let number = random.pick(&its_own).unwrap_or_default();
    number.wrapping_add([0, 0, 0, 1, u32::MAX][random.below(5)])
}

/// Mostly by a batch that is open, on a key that is there.
fn some_call(random: &mut Random, areas: &Areas, desk: &Desk) -> Call {
    let open: Vec<u32> = desk.rows.iter().map(|row| row.batch).filter(|batch| *batch != 0).collect();
    let slides = Pages::read_working(&areas.working_pages).and_then(|pages| slides_of(&pages)).unwrap_or_default();
    let (Some(batch), Some(slide)) = (random.pick(&open), random.pick(&slides)) else {
        return if random.once_in(4) { any_call(random) } else { Call::Begin };
    };
    let key = slide.key.wrapping_add([0, 1, u32::MAX][random.below(3)]);
    match random.below(13) {
        0 => Call::Fetch { batch, key },
        1 => Call::Next { batch, key },
        2 | 3 => Call::Insert { batch, key, value: random.number() },
        4 => Call::Delete { batch, key },
        5 => Call::Commit { batch },
        6 => Call::Abort { batch },
        7 => Call::Mark { batch },
        8 | 9 => Call::Return { batch, mark: some_mark(random, areas, batch) },
        10 => Call::Previous { batch, key },
        11 => Call::WriteOut { page: random.below(areas.page_count()) as u32 },
        _ => Call::Begin,
    }
}
