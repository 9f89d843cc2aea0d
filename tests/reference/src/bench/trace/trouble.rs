//! What goes wrong: cuts, restarts that are cut again, refusals on purpose, areas that grow or do not fit, registers that are
//! made anew.

use super::beside::split_beside_a_thin_leaf;
use super::crossing::{begin, cross_batches};
use super::everyday::{end_call, read_call, update_call, write_out_call};
use super::loading::{cut_formatting, load_some, refused_load, some_formatting};
use super::maker::{stores_of, Maker};
use super::trays::{some_trays, tray_call, wrong_mark_call};
use crate::calls::Call;
use crate::layout::Kind;
use crate::log::is_empty_slot;
use crate::sizes::{FEWEST_PAGES, FEWEST_SLOTS, PAGE_BYTES, SLOT_BYTES, TOP};

/// Lend the areas, sometimes call before they are formatted, and format or load.
pub fn first_start(maker: &mut Maker) {
    let (fewest_pages, fewest_slots) = match (maker.temper.exact, maker.temper.deep) {
        (true, _) => (maker.temper.most_pages, maker.temper.most_slots),
        (_, true) => (maker.temper.most_pages / 2, maker.temper.most_slots - 200),
        _ => (FEWEST_PAGES, FEWEST_SLOTS),
    };
    let pages = maker.random.within(fewest_pages, maker.temper.most_pages);
    let slots = maker.random.within(fewest_slots, maker.temper.most_slots);
    if maker.random.once_in(4) {
        maker.lend_even(FEWEST_PAGES - 1, FEWEST_SLOTS - 1);
        let refused = some_formatting(maker);
        maker.make(refused);
    }
    maker.lend_even(pages, slots);
    if maker.random.once_in(2) {
        maker.make(Call::Restart);
        maker.make(Call::Begin);
    }
    let start = some_formatting(maker);
    maker.make(start);
}

pub fn some_trouble(maker: &mut Maker) {
    match maker.random.below(100) {
        0..=29 => cut_some_call(maker),
        30..=54 => refused_on_purpose(maker),
        55..=66 => cross_batches(maker),
        67..=77 => some_trays(maker),
        78..=84 => split_beside_a_thin_leaf(maker),
        85..=89 => grow(maker),
        90..=92 => uneven_areas(maker),
        93..=95 => drop(maker.make(Call::Restart)),
        _ => rarely(maker),
    }
}

/// Cut a call of any kind, mostly one that stores.
fn cut_some_call(maker: &mut Maker) {
    let call = match maker.random.below(11) {
        0..=3 => end_call(maker),
        4..=6 => write_out_call(maker),
        7 => update_call(maker),
        8 => read_call(maker),
        9 => tray_call(maker),
        _ => Some(Call::Restart),
    };
    if let Some(call) = call {
        maker.make_cut(call);
    }
}

/// The power fails between two calls.
pub fn cut_at_rest(maker: &mut Maker) {
    maker.cut_at(0, Call::Fetch { batch: 0, key: 0 });
}

/// After a cut, or a refused format: a restart, perhaps cut again and again, or calls that are refused until then.
pub fn recover(maker: &mut Maker) {
    if maker.random.once_in(3) {
        wear_out(maker);
    }
    match maker.random.below(10) {
        0 => {
            let call = senseless_call(maker);
            maker.make(call);
        }
        1 => grow(maker),
        2..=4 => {
            for _ in 0..maker.random.within(1, 4) {
                maker.make_cut(Call::Restart);
            }
        }
        _ => {
            let event = maker.make(Call::Restart);
            if event.answer.is_err() {
                give_more_or_format(maker);
            }
        }
    }
}

/// A restart cut right after an unlink was stored: the next one links the page and unlinks it again, two slots a round,
/// until none is left. Where that would take too long, a few rounds.
pub fn wear_out(maker: &mut Maker) {
    let stable = maker.instrument.areas.stable_log.chunks_exact(SLOT_BYTES);
    let empty = stable.filter(|slot| is_empty_slot(slot)).count();
    let rounds = if empty < 300 { empty / 2 + 1 } else { 4 };
    for _ in 0..rounds {
        let stores = maker.instrument.outcome_of(Call::Restart).stores;
        let after_unlinks = stores_of(&stores, |kind| kind == Kind::Unlink);
        let Some(after) = after_unlinks.first() else {
            return;
        };
        maker.cut_at(*after, Call::Restart);
    }
}

/// The log or the pages are used up.
pub fn renew(maker: &mut Maker) {
    let open: Vec<u32> = maker.batches().iter().map(|batch| batch.number).collect();
    for batch in open {
        maker.make(Call::Commit { batch });
    }
    if maker.random.once_in(3) {
        use_up(maker);
    }
    give_more_or_format(maker);
}

/// Cases without slides, until not even a begin has its slots.
fn use_up(maker: &mut Maker) {
    while let Some(batch) = begin(maker) {
        maker.make(Call::Commit { batch });
    }
}

fn give_more_or_format(maker: &mut Maker) {
    let can_grow = maker.slot_count() < maker.temper.most_slots || maker.page_count() < maker.temper.most_pages;
    if can_grow && maker.random.once_in(2) {
        grow(maker);
    } else if maker.random.once_in(6) {
        cut_formatting(maker);
    } else {
        let start = some_formatting(maker);
        maker.make(start);
    }
}

/// "Lent areas never shrink and grow only by zeros."
fn grow(maker: &mut Maker) {
    let pages = maker.page_count() + maker.random.below(12);
    let slots = maker.slot_count() + maker.random.below(120);
    let pages = pages.min(maker.temper.most_pages).max(maker.page_count());
    let slots = slots.min(maker.temper.most_slots).max(maker.slot_count());
    maker.lend_even(pages, slots);
}

/// One area alone is longer, by a page or slot or by a byte: every call is refused, a format too. Then all are.
fn uneven_areas(maker: &mut Maker) {
    let (pages, slots) = (maker.page_count(), maker.slot_count());
    if pages >= maker.temper.most_pages || slots >= maker.temper.most_slots {
        return;
    }
    let mut lengths = crate::bench::instrument::lengths(pages, slots);
    let area = maker.random.below(4);
    lengths[area] += [1, PAGE_BYTES, SLOT_BYTES][maker.random.below(3)];
    maker.lend(lengths);
    for _ in 0..maker.random.within(1, 3) {
        let call = senseless_call(maker);
        maker.make(call);
    }
    // Room for the longer one, whichever it was: 144 bytes are two pages.
    maker.lend_even(pages + 2, slots + 1);
}

fn rarely(maker: &mut Maker) {
    match maker.random.below(8) {
        0 => cut_formatting(maker),
        1 => drop(maker.make(Call::Format)),
        2 | 3 => load_some(maker),
        4 | 5 => (0..9).for_each(|_| drop(maker.make(Call::Begin))),
        _ => drop(maker.make_cut(Call::Begin)),
    }
}

/// A call with numbers from anywhere.
fn senseless_call(maker: &mut Maker) -> Call {
    let (batch, key, value) = (wrong_batch(maker), maker.random.number(), maker.random.number());
    let key = [0, key][maker.random.below(2)];
    match maker.random.below(14) {
        0 => Call::Begin,
        1 => Call::Fetch { batch, key },
        2 => Call::Next { batch, key },
        3 => Call::Insert { batch, key, value },
        4 => Call::Delete { batch, key },
        5 => Call::Commit { batch },
        6 => Call::Abort { batch },
        7 => Call::WriteOut { page: maker.random.below(900) as u32 },
        8 => Call::Mark { batch },
        9 => Call::Return { batch, mark: key },
        10 => Call::Previous { batch, key },
        // Away from sound areas this is refused where the lengths are wrong, and else it is one more formatting.
        11 if !maker.instrument.areas.lengths_are_right() => some_formatting(maker),
        12 => refused_load(maker),
        _ => Call::WriteOut { page: maker.random.number() },
    }
}

fn wrong_batch(maker: &mut Maker) -> u32 {
    let past = maker.random.below(maker.slot_count() + 1) as u32;
    [0, TOP, past, maker.random.number()][maker.random.below(4)]
}

fn refused_on_purpose(maker: &mut Maker) {
    let call = match maker.random.below(8) {
        0 | 1 => wrong_batch_call(maker),
        2 | 3 => held_key_call(maker),
        4 => key_of_the_wrong_kind(maker),
        5 => wrong_mark_call(maker),
        6 => Some(refused_load(maker)),
        _ => Some(Call::WriteOut { page: (maker.page_count() + maker.random.below(4)) as u32 }),
    };
    if let Some(call) = call {
        maker.make(call);
    }
}

fn wrong_batch_call(maker: &mut Maker) -> Option<Call> {
    let batch = wrong_batch(maker);
    let key = maker.keys.any(&mut maker.random);
    let calls = [
        Call::Fetch { batch, key },
        Call::Next { batch, key },
        Call::Previous { batch, key },
        Call::Insert { batch, key, value: 1 },
        Call::Insert { batch, key: 0, value: 1 },
        Call::Delete { batch, key },
        Call::Commit { batch },
        Call::Abort { batch },
        Call::Mark { batch },
        Call::Return { batch, mark: batch },
        Call::Return { batch, mark: key },
    ];
    maker.random.pick(&calls)
}

/// A key on which some batch has a record pending, mostly another one.
fn held_key_call(maker: &mut Maker) -> Option<Call> {
    let batch = maker.some_batch()?;
    let pending = maker.batches().iter().flat_map(|open| &open.pending);
    let held: Vec<u32> = pending.map(|update| update.key).collect();
    let key = maker.random.pick(&held)?;
    let calls = [
        Call::Fetch { batch, key },
        Call::Next { batch, key: key.saturating_sub(1) },
        Call::Previous { batch, key: key.saturating_add(1) },
        Call::Insert { batch, key, value: 2 },
        Call::Delete { batch, key },
    ];
    maker.random.pick(&calls)
}

/// An insert of a key that is there, or a delete or fetch of one that is not, or a next above all, or a previous below all.
fn key_of_the_wrong_kind(maker: &mut Maker) -> Option<Call> {
    let batch = maker.some_batch()?;
    let slides = &maker.sound.as_ref()?.slides;
    let present = maker.keys.present(&mut maker.random, slides);
    let absent = maker.keys.absent(&mut maker.random, slides);
    let calls = [
        Call::Insert { batch, key: present, value: 3 },
        Call::Delete { batch, key: absent },
        Call::Fetch { batch, key: absent },
        Call::Next { batch, key: TOP },
        Call::Previous { batch, key: 0 },
    ];
    maker.random.pick(&calls)
}
