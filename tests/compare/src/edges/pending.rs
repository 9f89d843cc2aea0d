//! As many pending updates as 896 pages allow, by eight batches: every key that is held is held for every other batch.

use super::written::{begin, commit, insert, register, stored_up_to};
use crate::beside::Beside;
use crate::damage::Tried;
use crate::difference::Difference;
use reference::calls::{pages_suffice, slots_suffice, write_update, Call};
use reference::layout::{Entry, Kind};
use reference::log::Work;
use reference::sizes::{MOST_BATCHES, MOST_PAGES, UPDATE_PAGES, UPDATE_RECORDS};

const SLOTS: usize = 4400;

/// Eight batches with as many updates as the reserves grant, each on keys of its own: so many, put in and taken out by turns.
fn crowded(keys: usize) -> Work {
    let mut work = Work::formatted(MOST_PAGES, SLOTS);
    let filed = begin(&mut work);
    (1..4).for_each(|number| insert(&mut work, filed, 10_000 * number));
    commit(&mut work, filed);
    let batches: Vec<u32> = (0..MOST_BATCHES).map(|_| begin(&mut work)).collect();
    for number in 0.. {
        if !slots_suffice(&work, UPDATE_RECORDS, 1, 0) || !pages_suffice(&work, UPDATE_PAGES, 1) {
            break;
        }
        let (turn, place) = (number / MOST_BATCHES, number % MOST_BATCHES);
        let key = 500 + 40 * (MOST_BATCHES * (turn % keys) + place) as u32;
        let kind = if turn / keys % 2 == 0 { Kind::Insert } else { Kind::Delete };
        write_update(&mut work, batches[place], kind, Entry::new(key, key)).expect("the reserves hold");
    }
    work
}

/// Many keys held, in a tree of several pages; and few, in one leaf, which leaves pages for 126 updates.
pub fn most_pending() -> Tried {
    let mut beside = Beside::new();
    for (keys, least) in [(16, 120), (1, 126)] {
        let work = crowded(keys);
        let pending = work.open.pending_count();
        assert!(pending >= least, "{pending} updates are pending");
        held_by_others(&mut beside, &work).map_err(|difference| difference.at(format!("{pending} pending")))?;
        other_calls(&mut beside, &work).map_err(|difference| difference.at(format!("{pending} pending")))?;
    }
    Ok(beside.tally)
}

/// Each held key, asked for by another batch and by its own.
fn held_by_others(beside: &mut Beside, work: &Work) -> Result<(), Difference> {
    let (areas, desk) = register(work, &work.pages);
    let all = work.open.list.iter().flat_map(|batch| batch.pending.iter().map(|update| (batch.number, update.key)));
    for (number, (holder, key)) in all.enumerate() {
        let mut others = work.open.list.iter().map(|batch| batch.number).filter(|other| *other != holder);
        let batch = others.nth(number % (MOST_BATCHES - 1)).expect("eight are open");
        let by_others = [
            Call::Fetch { batch, key },
            Call::Insert { batch, key, value: 1 },
            Call::Delete { batch, key },
            Call::Next { batch, key: key - 1 },
        ];
        for made in [by_others[number % 4], by_others[(number + 1) % 4], Call::Fetch { batch: holder, key }] {
            beside.try_on(&areas, &desk, made).map_err(|difference| difference.at(format!("{made:?}")))?;
        }
    }
    Ok(())
}

fn other_calls(beside: &mut Beside, work: &Work) -> Result<(), Difference> {
    let (areas, desk) = register(work, &work.pages);
    let (batch, key) = (work.open.list[0].number, 7);
    let calls = [
        Call::Begin,
        Call::Insert { batch, key, value: 1 },
        Call::Delete { batch, key: 10_000 },
        Call::Commit { batch },
        Call::Abort { batch },
        Call::Mark { batch },
        Call::Return { batch, mark: batch },
        Call::Restart,
    ];
    for made in calls {
        beside.try_on(&areas, &desk, made).map_err(|difference| difference.at(format!("{made:?}")))?;
    }
    // Half of the records are not stored yet.
    let (areas, desk) = stored_up_to(areas, desk, work.log.records.len() / 2);
    for made in [Call::Commit { batch }, Call::WriteOut { page: 1 }, Call::Fetch { batch, key }] {
        beside.try_on(&areas, &desk, made).map_err(|difference| difference.at(format!("{made:?}")))?;
    }
    Ok(())
}
