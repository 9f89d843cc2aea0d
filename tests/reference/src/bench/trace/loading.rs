//! Loads: registers of every size at which a tree changes its shape, columns that are refused for one reason or several,
//! and loads that are cut.

use super::maker::Maker;
use super::trouble::cut_at_rest;
use crate::calls::{Call, Columns};
use crate::layout::Entry;
use crate::sizes::{ROOT, TOP, UPDATE_PAGES};
use crate::tree::pages_for;

/// A root leaf, none, one or all of its places used; the edges of two and of three leaves; of two and of three levels; and
/// of more levels.
const SIZES: [usize; 16] = [0, 1, 14, 15, 20, 21, 23, 24, 140, 141, 143, 144, 1400, 1401, 1403, 1404];

/// Pages for some updates to be pending.
const ROOM: usize = 6 * UPDATE_PAGES;

/// Format, or load what fits.
pub fn some_formatting(maker: &mut Maker) -> Call {
    if maker.random.once_in(2) {
        return Call::Format;
    }
    Call::Load { columns: some_columns(maker) }
}

/// Load, and sometimes lose the power before anything else is done.
pub fn load_some(maker: &mut Maker) {
    let columns = some_columns(maker);
    maker.make(Call::Load { columns });
    if maker.random.once_in(3) {
        cut_at_rest(maker);
    }
}

/// Only a further loading or formatting helps after one that was cut.
pub fn cut_formatting(maker: &mut Maker) {
    let cut = some_formatting(maker);
    maker.make_cut(cut);
    for _ in 0..maker.random.below(3) {
        let call = [Call::Restart, Call::Begin, Call::WriteOut { page: 0 }][maker.random.below(3)];
        maker.make(call);
    }
    let finished = some_formatting(maker);
    maker.make(finished);
}

/// Columns that fit: mostly one of the sizes that leaves room for updates, else the most, or any number up to it.
fn some_columns(maker: &mut Maker) -> Columns {
    let pages = maker.page_count();
    let (most, roomy) = (most_that_fit(pages), most_that_fit(pages.saturating_sub(ROOM)));
    let sizes: Vec<usize> = SIZES.into_iter().filter(|size| *size <= roomy).collect();
    let size = match maker.random.below(12) {
        0 => most,
        1 => maker.random.below(most + 1),
        _ => sizes[maker.random.below(sizes.len())],
    };
    Columns::of_records(records(maker, size))
}

/// How many records so many pages hold, where there are a map and a root at least.
fn most_that_fit(pages: usize) -> usize {
    let pages = pages.max(ROOT + 1);
    // No page holds more than 14, so this many never fit.
    let records: Vec<Entry> = (1..=14 * pages as u32).map(|key| Entry::new(key, key)).collect();
    let sizes: Vec<usize> = (0..=records.len()).collect();
    sizes.partition_point(|size| pages_for(&records[..*size], pages).is_some()) - 1
}

/// So many records by rising keys: side by side or apart, from the first key or from further up, and sometimes up to top.
fn records(maker: &mut Maker, size: usize) -> Vec<(u32, u32)> {
    let apart = [1, 2, 10, TOP / (size as u32 + 2)][maker.random.below(4)];
    let first = [1, apart][maker.random.below(2)];
    let key = |place: usize| first + apart * place as u32;
    let mut records: Vec<(u32, u32)> = (0..size).map(|place| (key(place), maker.random.number())).collect();
    if let (Some(last), true) = (records.last_mut(), maker.random.once_in(4)) {
        last.0 = TOP;
    }
    records
}

/// A load that is refused with 8, 7, 9 or 18, for one reason or for two.
pub fn refused_load(maker: &mut Maker) -> Call {
    let reasons = [maker.random.below(4), maker.random.below(4)];
    let has = |reason: usize| reasons.contains(&reason);
    let few = maker.random.within(2, 30);
    let size = if has(0) { most_that_fit(maker.page_count()) + maker.random.within(1, 20) } else { few };
    let (mut keys, mut values): (Vec<u32>, Vec<u32>) = records(maker, size).into_iter().unzip();
    if has(1) {
        let place = maker.random.below(size - 1);
        // As high as the next, or higher.
        keys[place] = keys[place + 1].saturating_add(maker.random.below(2) as u32);
    }
    if has(2) {
        // The first one alone leaves them rising.
        keys[if has(1) { maker.random.below(size) } else { 0 }] = 0;
    }
    if has(3) && maker.random.once_in(2) {
        values.push(0);
    } else if has(3) {
        values.pop();
    }
    Call::Load { columns: Columns::new(keys, values) }
}
