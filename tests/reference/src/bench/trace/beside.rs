//! A leaf of 4 entries beside one that has just split: removing from the first must link the new half, which is still
//! indirect, before it can join the two. This is the longest way down, and random keys seldom take it.

use super::crossing::begin;
use super::maker::Maker;
use crate::calls::Call;
use crate::layout::{entry_place, Page, Pages};
use crate::sizes::{FEWEST_ENTRIES, ROOT};
use crate::Refusal;

/// More tries than any leaf has entries.
const TRIES: usize = 20;

pub fn split_beside_a_thin_leaf(maker: &mut Maker) {
    let Some((thin, full)) = neighbours(maker) else {
        return;
    };
    let Some(mut batch) = begin(maker) else {
        return;
    };
    for _ in 0..TRIES {
        let leaf = leaf_covering(maker, thin);
        if !leaf.is_some_and(|leaf| leaf.entries.len() > FEWEST_ENTRIES) || !take_out(maker, &mut batch, thin) {
            break;
        }
    }
    // Once it has split, the new half covers its old high key.
    let unsplit = leaf_covering(maker, full).map(|leaf| leaf.own);
    for _ in 0..TRIES {
        if leaf_covering(maker, full).map(|leaf| leaf.own) != unsplit || !put_in(maker, &mut batch, full) {
            break;
        }
    }
    take_out(maker, &mut batch, thin);
    if maker.random.once_in(2) {
        maker.make_cut(Call::Commit { batch });
    } else {
        maker.make(Call::Commit { batch });
    }
}

/// High keys of two leaves side by side under one parent. The first is to be thinned, the second to be split; the second
/// stands to the left only where the first is its parent's last child.
fn neighbours(maker: &mut Maker) -> Option<(u32, u32)> {
    let pages = &maker.sound.as_ref()?.work.pages;
    let is_parent = |page: &&Page| page.is_index() && page.level == 1 && page.entries.len() >= 2;
    let parents: Vec<&Page> = pages.list.iter().filter(is_parent).collect();
    let entries = &maker.random.pick(&parents)?.entries;
    let last = entries.len() - 1;
    let place = if maker.random.once_in(2) { last } else { maker.random.below(last) };
    let other = if place == last { place - 1 } else { place + 1 };
    let high = |place: usize| pages.list[entries[place].child()].high;
    Some((entries[place].key, high(other)))
}

fn leaf_covering(maker: &Maker, key: u32) -> Option<&Page> {
    let pages: &Pages = &maker.sound.as_ref()?.work.pages;
    let mut page = &pages.list[ROOT];
    loop {
        if key > page.high {
            page = &pages.list[page.right];
        } else if page.is_index() {
            page = &pages.list[page.entries[entry_place(&page.entries, key)].child()];
        } else {
            return Some(page);
        }
    }
}

fn take_out(maker: &mut Maker, batch: &mut u32, near: u32) -> bool {
    let key = leaf_covering(maker, near).and_then(|leaf| leaf.entries.last().map(|slide| slide.key));
    key.is_some_and(|key| update(maker, batch, |batch| Call::Delete { batch, key }))
}

/// Put in a key between two of the leaf's.
fn put_in(maker: &mut Maker, batch: &mut u32, near: u32) -> bool {
    let keys: Vec<u32> =
        leaf_covering(maker, near).map_or(Vec::new(), |leaf| leaf.entries.iter().map(|e| e.key).collect());
    let gap = keys.windows(2).find(|pair| pair[1] - pair[0] > 1).map(|pair| pair[0] + 1);
    let value = maker.random.number();
    gap.is_some_and(|key| update(maker, batch, |batch| Call::Insert { batch, key, value }))
}

/// Make an update; where there is no room for one more pending, commit and go on in a new batch.
fn update(maker: &mut Maker, batch: &mut u32, call: impl Fn(u32) -> Call) -> bool {
    let answer = maker.make(call(*batch)).answer;
    if !matches!(answer, Err(Refusal::SlotsShort | Refusal::PagesShort)) {
        return answer.is_ok();
    }
    maker.make(Call::Commit { batch: *batch });
    let Some(next) = begin(maker) else {
        return false;
    };
    *batch = next;
    maker.make(call(next)).answer.is_ok()
}
