//! Loads: every number of records at which a tree takes another shape, in areas that just suffice and in ones that are a page
//! short; every reason for a refusal, and two at once; and what is done on a loaded register.

use super::written::{begin, commit, insert, register};
use crate::beside::Beside;
use crate::damage::Tried;
use crate::difference::Difference;
use reference::bench::image_of;
use reference::calls::{Answer, Call, Columns, Outcome};
use reference::layout::{Areas, Desk};
use reference::log::Work;
use reference::sizes::{FEWEST_PAGES, FEWEST_SLOTS, MOST_PAGES, TOP};

const PAGES: usize = 200;
const SLOTS: usize = 300;

pub fn loads() -> Tried {
    let mut beside = Beside::new();
    every_size(&mut beside)?;
    exact_room(&mut beside)?;
    refused(&mut beside)?;
    for size in [0, 1, 14, 15, 23, 24, 140, 141, 143, 230] {
        went_on(&mut beside, size).map_err(|difference| difference.at(format!("after a load of {size} records")))?;
    }
    Ok(beside.tally)
}

/// Every number of records that the largest areas hold, and one more.
pub fn all_loads() -> Tried {
    let mut beside = Beside::new();
    let areas = image_of(&Work::formatted(MOST_PAGES, FEWEST_SLOTS), MOST_PAGES, FEWEST_SLOTS);
    for size in 0..=8_041 {
        let fits = load(&mut beside, &areas, &Desk::empty(), columns(size)[size % 3])?.answer.is_ok();
        assert_eq!(fits, size <= 8_040, "{size} records");
    }
    Ok(beside.tally)
}

/// So many records, side by side or as far apart as they can be; the last key of the second is near top, of the third top.
fn columns(size: usize) -> [Columns; 3] {
    let apart = TOP / (size as u32 + 1);
    let of = |key: &dyn Fn(u32) -> u32| Columns::of_records((1..=size as u32).map(|number| (key(number), !number)));
    [of(&|number| number), of(&|number| number * apart), of(&|number| TOP - (size as u32 - number))]
}

fn load(beside: &mut Beside, areas: &Areas, desk: &Desk, columns: Columns) -> Result<Outcome, Difference> {
    let (keys, values) = (columns.keys.len(), columns.values.len());
    let place = || format!("a load of {keys} keys and {values} values in {} pages", areas.page_count());
    beside.try_on(areas, desk, Call::Load { columns }).map_err(|difference| difference.at(place()))
}

/// A register in the middle of its work, with a batch open.
fn busy() -> (Areas, Desk) {
    let mut work = Work::formatted(PAGES, SLOTS);
    let batch = begin(&mut work);
    (1..=60).for_each(|key| insert(&mut work, batch, key));
    commit(&mut work, batch);
    let open = begin(&mut work);
    insert(&mut work, open, 100);
    register(&work, &work.pages)
}

/// Over a register at work, over nothing, and over bytes that are no register.
fn every_size(beside: &mut Beside) -> Result<(), Difference> {
    let (areas, desk) = busy();
    let (mut nothing, mut anything) = (areas.clone(), areas.clone());
    nothing.each_mut().into_iter().for_each(|area| area.fill(0));
    anything.each_mut().into_iter().for_each(|area| area.fill(0xA5));
    for size in (0..=330).chain(1395..=1410) {
        for columns in columns(size) {
            load(beside, &areas, &desk, columns)?;
        }
        load(beside, &nothing, &Desk::empty(), columns(size)[0])?;
        load(beside, &anything, &desk, columns(size)[1])?;
    }
    Ok(())
}

/// From too few pages to more than the tree takes; and the most records that fit the largest areas.
fn exact_room(beside: &mut Beside) -> Result<(), Difference> {
    for size in [140, 141, 143, 144, 150, 200, 201, 230, 240, 1400, 1401, 1500, 8_040, 8_041] {
        let columns = columns(size)[0];
        let (mut done, mut short) = (0, 0);
        // The leaves alone take a page for 10 records; index pages are about a ninth of them.
        for pages in FEWEST_PAGES.max(size / 10)..=MOST_PAGES.min(FEWEST_PAGES + size / 8) {
            let areas = image_of(&Work::formatted(pages, FEWEST_SLOTS), pages, FEWEST_SLOTS);
            match load(beside, &areas, &Desk::empty(), columns)?.answer {
                Ok(_) => done += 1,
                Err(_) => short += 1,
            }
        }
        assert!(size == 8_041 || done > 0, "{size} records fit somewhere");
        assert!(size == 140 || short > 0, "{size} records do not fit everywhere");
    }
    Ok(())
}

/// One reason, and every two of them, over a register at work, and with lengths that are wrong besides.
fn refused(beside: &mut Beside) -> Result<(), Difference> {
    let (areas, desk) = busy();
    let mut uneven = areas.clone();
    uneven.stable_log.push(0);
    for (keys, values) in wrong_columns() {
        let columns = Columns::new(keys, values);
        for areas in [&areas, &uneven] {
            let outcome = load(beside, areas, &desk, columns)?;
            assert!(outcome.answer.is_err(), "the columns are wrong");
            // The desk is empty, and so nothing is sound until a restart.
            for made in [Call::Begin, Call::Restart] {
                beside.try_on(&outcome.areas, &outcome.desk, made)?;
            }
        }
    }
    Ok(())
}

fn wrong_columns() -> Vec<(Vec<u32>, Vec<u32>)> {
    let mut all = Vec::new();
    for size in [2, 15, 40, 2_000] {
        let rising: Vec<u32> = (1..=size).collect();
        let last = rising.len() - 1;
        let mut orders = vec![rising.clone()];
        for place in [0, last / 2, last] {
            let (mut zero, mut equal, mut falling) = (rising.clone(), rising.clone(), rising.clone());
            zero[place] = 0;
            equal[place.min(last - 1)] = rising[place.min(last - 1) + 1];
            falling.swap(place.min(last - 1), place.min(last - 1) + 1);
            let mut both = falling.clone();
            both[last - place] = 0;
            orders.extend([zero, equal, falling, both]);
        }
        for keys in orders {
            let even = keys.clone();
            let (shorter, longer) = (keys[1..].to_vec(), [&keys[..], &[7]].concat());
            // Rising keys of an even length are refused only where they do not fit.
            if keys != rising || size == 2_000 {
                all.push((keys.clone(), even));
            }
            all.extend([(keys.clone(), shorter), (keys, longer)]);
        }
    }
    all.extend([(vec![0], vec![0]), (vec![TOP, TOP], vec![1, 1]), (vec![], vec![1]), (vec![1], vec![])]);
    all
}

/// A restart right after the load; then a batch that reads, adds and removes around every leaf, and is taken back, and one
/// that removes from the left and is committed; and a restart of each stored image.
fn went_on(beside: &mut Beside, size: usize) -> Result<(), Difference> {
    let (areas, desk) = busy();
    let loaded = load(beside, &areas, &desk, columns(size)[1])?;
    let restarted = beside.go_on(&loaded.areas, &loaded.desk, Call::Restart)?;
    let (mut areas, mut desk) = (restarted.areas, restarted.desk);
    let mut make = |made: Call| -> Result<Outcome, Difference> {
        let outcome = beside.try_on(&areas, &desk, made).map_err(|difference| difference.at(format!("{made:?}")))?;
        (areas, desk) = (outcome.areas.clone(), outcome.desk);
        Ok(outcome)
    };
    let keys = columns(size)[1].keys;
    for taken_back in [true, false] {
        let Ok(Answer::Batch(batch)) = make(Call::Begin)?.answer else {
            return Ok(());
        };
        for key in keys.iter().copied().step_by(if taken_back { 25 } else { 1 }).take(6) {
            make(Call::Fetch { batch, key })?;
            make(Call::Next { batch, key })?;
            make(Call::Delete { batch, key })?;
            make(Call::Insert { batch, key: key + u32::from(taken_back), value: 5 })?;
            make(Call::Delete { batch, key })?;
        }
        make(Call::Next { batch, key: 0 })?;
        make(Call::WriteOut { page: 1 })?;
        make(if taken_back { Call::Abort { batch } } else { Call::Commit { batch } })?;
        make(Call::Restart)?;
    }
    Ok(())
}
