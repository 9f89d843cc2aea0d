//! Marks and returns: cases of several trays, of which some are taken back, marks that are kept and used later, and numbers
//! that are no marks of the batch.

use super::crossing::{begin, update_near};
use super::everyday::write_out_call;
use super::maker::Maker;
use crate::calls::{Answer, Call};
use crate::layout::Record;
use crate::sizes::TOP;

/// How many trays a case fills at most, and how many slides a tray holds.
const TRAYS: usize = 3;
const SLIDES: usize = 4;

/// A case of some trays. Those that jam are taken back, and filled again or not; then it ends, or is cut, or stays open.
pub fn some_trays(maker: &mut Maker) {
    let Some(batch) = begin(maker) else {
        return;
    };
    for _ in 0..maker.random.within(1, TRAYS) {
        let Ok(Answer::Mark(mark)) = maker.make(Call::Mark { batch }).answer else {
            return;
        };
        fill_tray(maker, batch);
        if maker.random.once_in(2) {
            take_back(maker, batch, mark);
            fill_tray(maker, batch);
        }
    }
    match maker.random.below(6) {
        0 => drop(maker.make(Call::Commit { batch })),
        1 => drop(maker.make_cut(Call::Commit { batch })),
        2 => drop(maker.make(Call::Abort { batch })),
        // A write-out that is cut stores a return in part.
        3 | 4 => drop(write_out_call(maker).map(|call| maker.make_cut(call))),
        _ => {}
    }
}

/// Slides side by side, put in or taken out: taking them back then changes the tree.
fn fill_tray(maker: &mut Maker, batch: u32) {
    let put_in = !maker.random.once_in(3);
    let from = maker.keys.any(&mut maker.random);
    for _ in 0..maker.random.below(SLIDES + 1) {
        if !update_near(maker, batch, from, put_in) {
            return;
        }
    }
}

/// Take back what came after the mark; then any open batch asks for a key that this has freed.
fn take_back(maker: &mut Maker, batch: u32, mark: u32) {
    let pending = maker.batches().iter().filter(|open| open.number == batch).flat_map(|open| &open.pending);
    let freed: Vec<u32> = pending.filter(|update| update.number > mark).map(|update| update.key).collect();
    maker.make(Call::Return { batch, mark });
    let (Some(key), Some(batch)) = (maker.random.pick(&freed), maker.some_batch()) else {
        return;
    };
    let calls = [Call::Fetch { batch, key }, Call::Insert { batch, key, value: 5 }, Call::Delete { batch, key }];
    let made = calls[maker.random.below(calls.len())];
    maker.make(made);
}

/// A mark, or a return, mostly to one of the batch's marks, be it stale, or to any other of its records.
pub fn tray_call(maker: &mut Maker) -> Option<Call> {
    let batch = maker.some_batch()?;
    match maker.random.below(8) {
        0..=2 => return Some(Call::Mark { batch }),
        3 => return wrong_mark_call(maker),
        _ => {}
    }
    let kept: Vec<u32> = maker.marks.iter().filter(|(of, _)| *of == batch).map(|(_, mark)| *mark).collect();
    let mark = match maker.random.pick(&kept) {
        Some(kept) if !maker.random.once_in(3) => kept,
        _ => some_record(maker, |record| record.batch == batch)?,
    };
    Some(Call::Return { batch, mark })
}

/// To no record of the batch: one of another open batch or of one that has ended, a change of the tree, none at all.
pub fn wrong_mark_call(maker: &mut Maker) -> Option<Call> {
    let batch = maker.some_batch()?;
    let last = maker.instrument.desk.written;
    let open: Vec<u32> = maker.batches().iter().map(|open| open.number).collect();
    let mark = match maker.random.below(6) {
        0 | 1 => some_record(maker, |record| record.batch != batch && open.contains(&record.batch))?,
        2 => some_record(maker, |record| record.batch != 0 && !open.contains(&record.batch))?,
        3 => some_record(maker, |record| record.batch == 0)?,
        _ => [0, last + 1, TOP, maker.random.number()][maker.random.below(4)],
    };
    Some(Call::Return { batch, mark })
}

fn some_record(maker: &mut Maker, wanted: impl Fn(&Record) -> bool) -> Option<u32> {
    let records = maker.sound.as_ref()?.work.log.records.iter();
    let numbers: Vec<u32> = records.filter(|record| wanted(record)).map(|record| record.own).collect();
    maker.random.pick(&numbers)
}
