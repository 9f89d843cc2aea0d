//! Key 0: an insert of it is refused after 1 and before 11, whatever else is wrong. What registers from the field have filed
//! under it is a slide as any other for every other call, and its records are redone and undone.

use super::written::{begin, commit, insert, register, stored_up_to};
use crate::beside::Beside;
use crate::damage::Tried;
use crate::difference::Difference;
use reference::calls::{take_back, write_update, Answer, Call, Outcome};
use reference::layout::{Areas, Desk, Entry, Kind, Pages};
use reference::log::Work;
use reference::sizes::TOP;

const PAGES: usize = 64;
const SLOTS: usize = 400;

pub fn key_0() -> Tried {
    let mut beside = Beside::new();
    asked_first(&mut beside)?;
    let mut found = 0;
    for (place, work) in registers_with_0().iter().enumerate() {
        for stored in 0..=work.log.records.len() {
            let tried = from_the_field(&mut beside, work, stored);
            found += tried.map_err(|difference| difference.at(format!("register {place}, {stored} records stored")))?;
        }
    }
    assert!(found > 30, "slide 0 was found {found} times");
    Ok(beside.tally)
}

fn delete(work: &mut Work, batch: u32, key: u32) {
    write_update(work, batch, Kind::Delete, Entry::new(key, key ^ 1)).expect("room");
}

/// Slides 0 to 150, with four of them in the leaf of slide 0.
fn filed() -> Work {
    let mut work = Work::formatted(PAGES, SLOTS);
    let batch = begin(&mut work);
    (0..16).for_each(|number| insert(&mut work, batch, 10 * number));
    [10, 20, 30].into_iter().for_each(|key| delete(&mut work, batch, key));
    commit(&mut work, batch);
    work
}

/// Slide 0 taken out, which joins leaves; taken out, put in and taken out again, and all of it taken back; put in.
fn registers_with_0() -> [Work; 3] {
    let (mut out, mut in_and_out, mut put_in) = (filed(), filed(), Work::formatted(PAGES, SLOTS));
    let batch = begin(&mut out);
    delete(&mut out, batch, 0);
    insert(&mut out, batch, 5);
    let batch = begin(&mut in_and_out);
    delete(&mut in_and_out, batch, 0);
    insert(&mut in_and_out, batch, 0);
    delete(&mut in_and_out, batch, 0);
    take_back(&mut in_and_out, batch).expect("room");
    let batch = begin(&mut put_in);
    (0..16).rev().for_each(|number| insert(&mut put_in, batch, 10 * number));
    [out, in_and_out, put_in]
}

/// Inserts of keys 0 and 1 by batches that are there, hold the keys, or are not there; on areas and desks that are sound, not
/// sound, or of wrong lengths.
fn asked_first(beside: &mut Beside) -> Result<(), Difference> {
    let mut work = filed();
    let holder = begin(&mut work);
    delete(&mut work, holder, 0);
    insert(&mut work, holder, 1);
    let other = begin(&mut work);
    let (sound, desk) = register(&work, &work.pages);
    for (place, (areas, desk)) in spoiled(&sound, desk).iter().enumerate() {
        for batch in [holder, other, 0, 99, TOP] {
            for key in [0, 1, 2] {
                let made = Call::Insert { batch, key, value: 5 };
                let tried = beside.try_on(areas, desk, made);
                tried.map_err(|difference| difference.at(format!("{made:?} on register {place}")))?;
            }
        }
    }
    Ok(())
}

fn spoiled(sound: &Areas, desk: Desk) -> Vec<(Areas, Desk)> {
    let mut all = vec![(sound.clone(), desk), (sound.clone(), Desk::empty())];
    let mut zeros = sound.clone();
    zeros.each_mut().into_iter().for_each(|area| area.fill(0));
    all.push((zeros, Desk::empty()));
    for area in 0..4 {
        let (mut turned, mut longer) = (sound.clone(), sound.clone());
        turned.each_mut()[area][200] ^= 1;
        longer.each_mut()[area].push(0);
        all.extend([(turned, desk), (longer, desk)]);
    }
    all
}

/// Restart the image with so many records stored and no page written out, and then work on slide 0: take it out, and take that
/// back by an abort; take it out for good. Answers how often it was found.
fn from_the_field(beside: &mut Beside, work: &Work, stored: usize) -> Result<usize, Difference> {
    let (areas, desk) = register(work, &Pages::formatted(PAGES));
    let (mut areas, mut desk) = stored_up_to(areas, desk, stored);
    let (mut batch, mut found, key) = (0, 0, 0);
    let mut make = |made: Call| -> Result<Outcome, Difference> {
        let outcome = beside.try_on(&areas, &desk, made).map_err(|difference| difference.at(format!("{made:?}")))?;
        (areas, desk) = (outcome.areas.clone(), outcome.desk);
        Ok(outcome)
    };
    make(Call::Restart)?;
    for taken_back in [true, false] {
        if let Ok(Answer::Batch(begun)) = make(Call::Begin)?.answer {
            batch = begun;
        }
        found += usize::from(make(Call::Fetch { batch, key })?.answer.is_ok());
        for made in [Call::Next { batch, key }, Call::Insert { batch, key, value: 5 }, Call::Delete { batch, key }] {
            make(made)?;
        }
        if let Ok(Answer::Batch(batch)) = make(Call::Begin)?.answer {
            for made in [Call::Fetch { batch, key }, Call::Insert { batch, key, value: 5 }, Call::Delete { batch, key }]
            {
                make(made)?;
            }
        }
        make(Call::Insert { batch, key, value: 5 })?;
        make(if taken_back { Call::Abort { batch } } else { Call::Commit { batch } })?;
    }
    make(Call::Restart)?;
    Ok(found)
}
