//! Restart stops for want of places exactly where its next record or page does not exist, and goes on in longer areas.
//! The reserves keep a running register from such images, so these are written past them.

use reference::bench::{full_register, image_of};
use reference::calls::{call, sound, Answer, Call, Outcome};
use reference::layout::{Areas, Desk, Kind};
use reference::log::Work;
use reference::Refusal;

fn restart(areas: &Areas) -> Outcome {
    call(areas, &Desk::empty(), Call::Restart)
}

/// A refused restart leaves zeros in the working areas, an empty desk, and the stable areas as they were.
fn check_refused(areas: &Areas, refusal: Refusal) {
    let outcome = restart(areas);
    let mut expected = areas.clone();
    expected.fill_working(0);
    assert_eq!(outcome, Outcome { answer: Err(refusal), areas: expected, desk: Desk::empty(), stores: Vec::new() });
}

/// The kinds of the records that a finished restart added.
fn new_kinds(work: &Work, outcome: &Outcome) -> Vec<Kind> {
    let records = sound(&outcome.areas, &outcome.desk).expect("sound").work.log.records;
    records[work.log.records.len()..].iter().map(|record| record.kind).collect()
}

#[test]
fn restart_wants_the_page_that_its_split_takes() {
    let work = full_register();
    check_refused(&image_of(&work, 16, 1024), Refusal::PagesShort);
    let longer = restart(&image_of(&work, 17, 1024));
    assert_eq!(longer.answer, Ok(Answer::Restarted { ended: 1, changes: 0 }));
    assert_eq!(new_kinds(&work, &longer), [Kind::AbortMark, Kind::Split, Kind::UndoDelete, Kind::End]);
}

#[test]
fn restart_wants_a_slot_for_each_record() {
    let work = full_register();
    let written = work.log.records.len();
    for slots in written..written + 4 {
        check_refused(&image_of(&work, 17, slots), Refusal::SlotsShort);
    }
    assert!(restart(&image_of(&work, 17, written + 4)).answer.is_ok());
}

#[test]
fn where_slot_and_page_are_short_at_once_the_slot_is_asked_for_first() {
    let work = full_register();
    let written = work.log.records.len();
    // With 16 pages the split, the second record, has no page.
    check_refused(&image_of(&work, 16, written + 1), Refusal::SlotsShort);
    check_refused(&image_of(&work, 16, written + 2), Refusal::PagesShort);
}
