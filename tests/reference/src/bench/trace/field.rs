//! A register from the field: the version that left it still filed slides under key 0, which an insert now refuses. So its
//! records are written without going through the calls. Only the stored image comes here.

use super::aged::Aged;
use super::maker::Maker;
use crate::bench::{Instrument, Random};
use crate::calls::{pages_suffice, slots_suffice, write_update, Call};
use crate::layout::{Entry, Kind};
use crate::sizes::{UPDATE_PAGES, UPDATE_RECORDS};
use std::collections::BTreeMap;

/// How many cases are filed and then open at most, how many updates the one and the others make, and among how many keys.
const FILED: usize = 25;
const OPEN: usize = 3;
const UPDATES: usize = 5;
const KEYS: usize = 40;

/// So many pages and slots after a cut, and the slides that are filed.
pub fn from_the_field(random: &mut Random, pages: usize, slots: usize) -> (Instrument, BTreeMap<u32, u32>) {
    let mut register = Aged::new(pages, slots);
    for case in 0..random.within(1, FILED) {
        if register.work.log.records.len() > slots / 2 {
            break;
        }
        let batch = register.begin();
        // The first files slide 0; later ones take it out or put it in again.
        update(&mut register, batch, if case == 0 { 0 } else { some_key(random) });
        (0..random.below(UPDATES)).for_each(|_| update(&mut register, batch, some_key(random)));
        register.commit(batch);
        write_out_some(&mut register, random);
    }
    let filed = register.slides.clone();
    let open: Vec<u32> = (0..random.within(1, OPEN)).map(|_| register.begin()).collect();
    for _ in 0..random.below(2 * UPDATES) {
        let batch = open[random.below(open.len())];
        update(&mut register, batch, some_key(random));
        write_out_some(&mut register, random);
    }
    let (mut register, _) = register.finished();
    register.cut = Some(0);
    register.make(Call::Restart);
    (register, filed)
}

/// Mostly 0, as that is what this is about, and its neighbours in the first leaf.
fn some_key(random: &mut Random) -> u32 {
    let any = 10 * random.below(KEYS) as u32;
    [0, any / 10, any, any][random.below(4)]
}

/// Put in a key that is not there, or take out one that is, where no other case holds it and there is room.
fn update(register: &mut Aged, batch: u32, key: u32) {
    let Aged { work, slides, .. } = register;
    let held = |open: &crate::log::Batch| open.number != batch && open.pending.iter().any(|update| update.key == key);
    let fits = slots_suffice(work, UPDATE_RECORDS, 1, 0) && pages_suffice(work, UPDATE_PAGES, 1);
    if !fits || work.open.list.iter().any(held) {
        return;
    }
    let there = slides.remove(&key);
    let value = there.unwrap_or(work.log.last_number());
    if there.is_none() {
        slides.insert(key, value);
    }
    let kind = if there.is_some() { Kind::Delete } else { Kind::Insert };
    write_update(work, batch, kind, Entry::new(key, value)).expect("there is room");
}

fn write_out_some(register: &mut Aged, random: &mut Random) {
    if random.once_in(4) {
        let page = random.below(register.work.pages.count());
        register.write_out(page);
    }
}

/// A call on slide 0 by an open case, if one is.
pub fn ask_for_slide_0(maker: &mut Maker) {
    let Some(batch) = maker.some_batch() else {
        return;
    };
    let key = 0;
    let made = match maker.random.below(9) {
        0..=2 => Call::Fetch { batch, key },
        3 => Call::Next { batch, key },
        // Nothing but slide 0 is below.
        4 => Call::Previous { batch, key: 1 },
        5 | 6 => Call::Delete { batch, key },
        _ => Call::Insert { batch, key, value: 6 },
    };
    maker.make(made);
}
