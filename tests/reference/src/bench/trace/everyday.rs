//! The calls of a working instrument, and now and then something else.

use super::maker::Maker;
use super::trays::tray_call;
use super::trouble;
use crate::calls::Call;
use crate::log::page_changes;
use crate::sizes::{MAP, ROOT};

pub fn step(maker: &mut Maker) {
    let enough = maker.pending_count() >= maker.temper.wanted_pending || !maker.update_fits();
    if maker.random.once_in(maker.temper.calm) {
        trouble::some_trouble(maker);
    } else if enough && maker.pending_count() > 0 && !maker.random.once_in(5) {
        end_batch(maker);
    } else {
        everyday(maker);
    }
}

fn everyday(maker: &mut Maker) {
    match maker.random.below(100) {
        share if share < maker.temper.begins && maker.batches().len() < maker.temper.wanted_open => {
            maker.make(Call::Begin);
        }
        0..=69 => drop(update_call(maker).map(|call| maker.make(call))),
        70..=76 => drop(tray_call(maker).map(|call| maker.make(call))),
        77..=81 => end_batch(maker),
        82..=89 => drop(read_call(maker).map(|call| maker.make(call))),
        _ => write_out_some(maker),
    }
}

/// An insert or delete by an open batch, or a begin where none is open.
pub fn update_call(maker: &mut Maker) -> Option<Call> {
    let Some(batch) = maker.some_batch() else {
        return Some(Call::Begin);
    };
    let slides = &maker.sound.as_ref()?.slides;
    maker.keys.look_at(&mut maker.random, slides.len());
    let against = maker.random.once_in(8);
    let call = if maker.keys.growing != against {
        let key = maker.keys.absent(&mut maker.random, slides);
        Call::Insert { batch, key, value: maker.random.number() }
    } else {
        let key = maker.keys.present(&mut maker.random, slides);
        Call::Delete { batch, key }
    };
    Some(call)
}

pub fn read_call(maker: &mut Maker) -> Option<Call> {
    let batch = maker.some_batch()?;
    let slides = &maker.sound.as_ref()?.slides;
    let key = match maker.random.below(2) {
        0 => maker.keys.present(&mut maker.random, slides),
        _ => maker.keys.any(&mut maker.random),
    };
    let calls = [Call::Fetch { batch, key }, Call::Next { batch, key }, Call::Previous { batch, key }];
    maker.random.pick(&calls)
}

/// Mostly commits: an abort takes as many records again.
pub fn end_call(maker: &mut Maker) -> Option<Call> {
    let batch = maker.some_batch()?;
    Some(if maker.random.once_in(6) { Call::Abort { batch } } else { Call::Commit { batch } })
}

fn end_batch(maker: &mut Maker) {
    if let Some(call) = end_call(maker) {
        maker.make(call);
    }
}

fn write_out_some(maker: &mut Maker) {
    for _ in 0..maker.random.within(1, 3) {
        if let Some(call) = write_out_call(maker) {
            maker.make(call);
        }
    }
}

/// Mostly pages that were changed lately: they are the ones that a cut may catch half written.
pub fn write_out_call(maker: &mut Maker) -> Option<Call> {
    let work = &maker.sound.as_ref()?.work;
    let lately = work.log.records.iter().rev().take(12).flat_map(page_changes);
    let lately: Vec<usize> = lately.map(|(_, page)| page).collect();
    let page = match maker.random.below(8) {
        0 => MAP,
        1 => ROOT,
        2 | 3 => maker.random.below(work.pages.count()),
        _ => maker.random.pick(&lately)?,
    };
    Some(Call::WriteOut { page: page as u32 })
}
