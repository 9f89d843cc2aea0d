//! Marks and returns: every number as a mark for every batch, on registers with cases that are whole, partly taken back, or
//! have their abort mark; what follows a return; and the order of the checks.

use super::written::{begin, commit, delete, insert, register, stored_up_to};
use crate::beside::Beside;
use crate::damage::Tried;
use crate::difference::Difference;
use reference::calls::{sound, take_back, undo_above, Call, Outcome};
use reference::layout::{Areas, Desk, Kind, Page, Pages, Record};
use reference::log::Work;
use reference::sizes::TOP;

const PAGES: usize = 128;
const SLOTS: usize = 700;

pub fn marks() -> Tried {
    let mut beside = Beside::new();
    for (place, work) in registers().iter().enumerate() {
        let (areas, desk) = register(work, &work.pages);
        assert!(sound(&areas, &desk).is_some(), "register {place} is sound");
        let tried = every_number(&mut beside, work)
            .and_then(|()| asked_in_order(&mut beside, work))
            .and_then(|()| went_on(&mut beside, work));
        tried.map_err(|difference| difference.at(format!("register {place}")))?;
    }
    Ok(beside.tally)
}

/// Slides 10 to 200 are filed, a case has been taken back as a whole, and two are open. The first has filled three trays; one
/// more has moved some of its slides to other pages, and is committed. Answers the first, and its marks before each tray.
fn three_trays() -> (Work, u32, [u32; 3]) {
    let mut work = Work::formatted(PAGES, SLOTS);
    let filed = begin(&mut work);
    (1..=20).for_each(|number| insert(&mut work, filed, 10 * number));
    commit(&mut work, filed);
    let ended = begin(&mut work);
    insert(&mut work, ended, 5);
    take_back(&mut work, ended).expect("room");
    let (batch, other) = (begin(&mut work), begin(&mut work));
    let marks = [0, 1, 2].map(|tray| {
        let mark = work.open.find(batch).expect("open").last;
        (1..=3).for_each(|slide| insert(&mut work, batch, 10 * (4 * tray + 3) + slide));
        delete(&mut work, batch, 10 * (5 * tray + 2));
        insert(&mut work, other, 10 * (4 * tray + 3) + 7);
        mark
    });
    let around = begin(&mut work);
    (81..=89).for_each(|key| insert(&mut work, around, key));
    commit(&mut work, around);
    assert!(
        work.log.records.iter().any(|record| record.batch == batch && has_moved(&work, record)),
        "slides have moved"
    );
    (work, batch, marks)
}

/// Whether the slide that a record has put in stands on another page now.
fn has_moved(work: &Work, record: &Record) -> bool {
    let has_key = |page: &Page| page.is_leaf() && page.entries.iter().any(|slide| slide.key == record.key);
    record.kind == Kind::Insert && !has_key(work.page(record.a))
}

/// The trays as they were filled; with the last taken back, or one slide of it; with two taken back and filled otherwise; and
/// with the abort mark of the first case.
fn registers() -> Vec<Work> {
    let (whole, batch, marks) = three_trays();
    let mut last = whole.clone();
    undo_above(&mut last, batch, marks[2]).expect("room");
    let mut part = whole.clone();
    let newest = part.open.find(batch).expect("open").next_to_undo();
    undo_above(&mut part, batch, newest - 1).expect("room");
    let mut again = last.clone();
    undo_above(&mut again, batch, marks[1]).expect("room");
    insert(&mut again, batch, 75);
    delete(&mut again, batch, 130);
    let mut ending = last.clone();
    ending.write_about_batch(Kind::AbortMark, batch).expect("room");
    undo_above(&mut ending, batch, marks[1] + 1).expect("room");
    vec![whole, last, part, again, ending]
}

/// Batches that are open, that have ended, and that never were.
fn batches(work: &Work) -> Vec<u32> {
    let begun = work.log.records.iter().filter(|record| record.kind == Kind::Begin).map(|record| record.own);
    begun.chain([0, 2, TOP]).collect()
}

/// Every record's number, 0, and beyond the log.
fn numbers(work: &Work) -> impl Iterator<Item = u32> {
    let last = work.log.last_number();
    (0..=last + 2).chain([SLOTS as u32, SLOTS as u32 + 1, TOP - 1, TOP])
}

fn try_on(beside: &mut Beside, areas: &Areas, desk: &Desk, made: Call) -> Result<Outcome, Difference> {
    beside.try_on(areas, desk, made).map_err(|difference| difference.at(format!("{made:?}")))
}

/// Every number as a mark, with all records stored and with some; and the batch's mark.
fn every_number(beside: &mut Beside, work: &Work) -> Result<(), Difference> {
    let (areas, desk) = register(work, &work.pages);
    let (part, part_desk) = stored_up_to(areas.clone(), desk, work.log.records.len() / 2);
    for batch in batches(work) {
        try_on(beside, &areas, &desk, Call::Mark { batch })?;
        for mark in numbers(work) {
            try_on(beside, &areas, &desk, Call::Return { batch, mark })?;
        }
        try_on(beside, &part, &part_desk, Call::Mark { batch })?;
        try_on(beside, &part, &part_desk, Call::Return { batch, mark: batch })?;
    }
    Ok(())
}

/// 1 before 11 before 12 before 20: on areas and desks of wrong lengths and not sound, for batches and marks of all kinds.
fn asked_in_order(beside: &mut Beside, work: &Work) -> Result<(), Difference> {
    let (sound, desk) = register(work, &work.pages);
    let some = [0, 1, work.open.list[0].number, work.open.list[0].last, TOP];
    for (areas, desk) in spoiled(&sound, desk) {
        for batch in batches(work) {
            try_on(beside, &areas, &desk, Call::Mark { batch })?;
            for mark in some {
                try_on(beside, &areas, &desk, Call::Return { batch, mark })?;
            }
        }
    }
    Ok(())
}

fn spoiled(sound: &Areas, desk: Desk) -> Vec<(Areas, Desk)> {
    let mut all = vec![(sound.clone(), Desk::empty())];
    for area in 0..4 {
        let (mut turned, mut longer) = (sound.clone(), sound.clone());
        turned.each_mut()[area][200] ^= 1;
        longer.each_mut()[area].push(0);
        all.extend([(turned, desk), (longer.clone(), desk), (longer, Desk::empty())]);
    }
    all
}

/// What follows a return to each of the first case's records: both cases ask for what it freed and what it kept, the case
/// ends, and the image is restarted with any number of the return's records stored.
fn went_on(beside: &mut Beside, work: &Work) -> Result<(), Difference> {
    let [batch, other] = [0, 1].map(|place| work.open.list[place].number);
    let own = work.log.records.iter().filter(|record| record.batch == batch).map(|record| record.own);
    for mark in own.collect::<Vec<_>>() {
        let at_mark = |difference: Difference| difference.at(format!("after a return to {mark}"));
        let (areas, desk) = register(work, &Pages::formatted(PAGES));
        let returned = try_on(beside, &areas, &desk, Call::Return { batch, mark })?;
        follow(beside, &returned, [batch, other]).map_err(at_mark)?;
        restart_each(beside, &returned, work.log.records.len()).map_err(at_mark)?;
    }
    Ok(())
}

fn follow(beside: &mut Beside, returned: &Outcome, [batch, other]: [u32; 2]) -> Result<(), Difference> {
    let value = 9;
    for key in [31, 20, 71, 70, 111, 120] {
        for batch in [batch, other] {
            for made in [Call::Fetch { batch, key }, Call::Insert { batch, key, value }, Call::Delete { batch, key }] {
                try_on(beside, &returned.areas, &returned.desk, made)?;
            }
        }
    }
    for made in [Call::Mark { batch }, Call::Commit { batch }, Call::Abort { batch }, Call::WriteOut { page: 1 }] {
        let outcome = try_on(beside, &returned.areas, &returned.desk, made)?;
        try_on(beside, &outcome.areas, &Desk::empty(), Call::Restart)?;
    }
    Ok(())
}

/// With so many records stored, or more: a return that was stored in part is undone further.
fn restart_each(beside: &mut Beside, returned: &Outcome, stored: usize) -> Result<(), Difference> {
    for stored in stored..=returned.desk.written as usize {
        let mut image = returned.areas.clone();
        image.stable_log = image.working_log.clone();
        let (image, _) = stored_up_to(image, returned.desk, stored);
        beside
            .try_on(&image, &Desk::empty(), Call::Restart)
            .map_err(|difference| difference.at(format!("a restart with {stored} records stored")))?;
    }
    Ok(())
}
