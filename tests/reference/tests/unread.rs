//! Request U1, unread barcodes: an insert refuses key 0 with 7, after 1 and before 11, and nothing else knows of key 0.
//! What the version before has filed under it is restarted, fetched, deleted and put back.

use reference::bench::{image_of, Instrument};
use reference::calls::{call, sound, take_back, write_update, Answer, Call, Outcome};
use reference::layout::{Areas, Desk, Entry, Kind, Pages, Record};
use reference::log::Work;
use reference::sizes::{PAGE_BYTES, SLOT_BYTES, TOP};
use reference::Refusal;

type Given = Result<Answer, Refusal>;

const DONE: Given = Ok(Answer::Done);
const FOUND: Given = Ok(Answer::Value(8));
const PAGES: usize = 64;
const SLOTS: usize = 400;

fn formatted(pages: usize, slots: usize) -> Instrument {
    let mut instrument = Instrument::lent(pages, slots);
    assert_eq!(instrument.make(Call::Format).answer, DONE);
    instrument
}

fn begin(instrument: &mut Instrument) -> u32 {
    match instrument.make(Call::Begin).answer {
        Ok(Answer::Batch(batch)) => batch,
        other => panic!("{other:?}"),
    }
}

/// What an insert of this key answers here; a refused one is seen to change nothing.
fn insert(instrument: &Instrument, batch: u32, key: u32) -> Given {
    let outcome = instrument.outcome_of(Call::Insert { batch, key, value: 5 });
    if let Err(refusal) = outcome.answer {
        assert_eq!(outcome, Outcome::refused(&instrument.areas, &instrument.desk, refusal));
    }
    outcome.answer
}

/// What an insert answers for key 0 and for key 1.
fn both(instrument: &Instrument, batch: u32) -> [Given; 2] {
    [insert(instrument, batch, 0), insert(instrument, batch, 1)]
}

const UNREAD: Given = Err(Refusal::Unread);

#[test]
fn the_number_is_7() {
    assert_eq!(Refusal::Unread.number(), 7);
}

#[test]
fn key_0_is_refused_and_key_1_is_not() {
    let mut instrument = formatted(PAGES, SLOTS);
    let batch = begin(&mut instrument);
    assert_eq!(both(&instrument, batch), [UNREAD, DONE]);
    assert_eq!(insert(&instrument, batch, TOP), DONE);
}

#[test]
fn it_is_asked_after_the_lengths() {
    let mut instrument = formatted(PAGES, SLOTS);
    let batch = begin(&mut instrument);
    for area in 0..4 {
        for length in [0, 1, PAGE_BYTES * 15, PAGE_BYTES * 64 + 1, SLOT_BYTES * 63, SLOT_BYTES * 400 - 1] {
            let mut uneven = instrument.clone();
            uneven.areas.each_mut()[area].resize(length, 0);
            assert_eq!(both(&uneven, batch), [Err(Refusal::Lengths); 2], "area {area}, {length} bytes");
        }
    }
}

#[test]
fn it_is_asked_before_soundness() {
    let mut instrument = formatted(PAGES, SLOTS);
    let batch = begin(&mut instrument);
    let mut unsound = [(); 5].map(|()| instrument.clone());
    unsound[0].areas.working_pages[200] ^= 1;
    unsound[1].areas.working_log[30] ^= 1;
    unsound[2].desk.written += 1;
    unsound[3].desk = Desk::empty();
    unsound[4] = Instrument::lent(PAGES, SLOTS);
    for unsound in unsound {
        assert_eq!(both(&unsound, batch), [UNREAD, Err(Refusal::Unsound)]);
    }
}

#[test]
fn it_is_asked_before_the_batch() {
    let mut instrument = formatted(PAGES, SLOTS);
    for batch in [0, 1, 99, TOP] {
        assert_eq!(both(&instrument, batch), [UNREAD, Err(Refusal::NoBatch)]);
    }
    let batch = begin(&mut instrument);
    assert_eq!(instrument.make(Call::Commit { batch }).answer, DONE);
    assert_eq!(both(&instrument, batch), [UNREAD, Err(Refusal::NoBatch)]);
}

#[test]
fn it_is_asked_before_the_room() {
    for (pages, slots, short) in [(256, 66, Refusal::SlotsShort), (16, 1024, Refusal::PagesShort)] {
        let mut instrument = formatted(pages, slots);
        let batch = begin(&mut instrument);
        if short == Refusal::PagesShort {
            assert_eq!(instrument.make(Call::Insert { batch, key: 2, value: 5 }).answer, DONE);
        }
        assert_eq!(both(&instrument, batch), [UNREAD, Err(short)]);
    }
}

#[test]
fn the_other_calls_take_key_0_as_any_other() {
    let mut instrument = formatted(PAGES, SLOTS);
    let batch = begin(&mut instrument);
    let key = 0;
    let steps = [Call::Next { batch, key }, Call::Previous { batch, key }];
    for made in [Call::Fetch { batch, key }, Call::Delete { batch, key }].into_iter().chain(steps) {
        assert_eq!(instrument.make(made).answer, Err(Refusal::Absent), "{made:?}");
    }
}

fn write(work: &mut Work, batch: u32, kind: Kind, key: u32) {
    write_update(work, batch, kind, Entry::new(key, key + 8)).expect("room");
}

fn begun(work: &mut Work) -> u32 {
    work.write(Record::new(Kind::Begin)).expect("room");
    work.log.last_number()
}

/// A log of the version before: one case has filed slides 0 to 150, and the leaf of slide 0 was left with four of them.
fn filed() -> Work {
    let mut work = Work::formatted(PAGES, SLOTS);
    let batch = begun(&mut work);
    (0..16).for_each(|number| write(&mut work, batch, Kind::Insert, 10 * number));
    [10, 20, 30].into_iter().for_each(|key| write(&mut work, batch, Kind::Delete, key));
    work.write_about_batch(Kind::Commit, batch).expect("room");
    work
}

/// Its stored image, with all pages written out, and with none.
fn images(work: &Work) -> [Areas; 2] {
    let written_out = image_of(work, PAGES, SLOTS);
    [Areas { stable_pages: Pages::formatted(PAGES).bytes(), ..written_out.clone() }, written_out]
}

fn restarted(image: &Areas) -> Instrument {
    let mut instrument = Instrument { areas: image.clone(), ..Instrument::default() };
    assert!(instrument.make(Call::Restart).answer.is_ok());
    instrument
}

fn fetch_0(instrument: &mut Instrument, batch: u32) -> Given {
    instrument.make(Call::Fetch { batch, key: 0 }).answer
}

/// The records of these kinds and of key 0.
fn of_key_0(instrument: &Instrument, kind: Kind) -> usize {
    let records = sound(&instrument.areas, &instrument.desk).expect("sound").work.log.records;
    records.iter().filter(|record| record.kind == kind && record.key == 0).count()
}

#[test]
fn slide_0_from_the_field_is_fetched_and_deleted() {
    for image in images(&filed()) {
        let mut instrument = restarted(&image);
        let batch = begin(&mut instrument);
        assert_eq!(fetch_0(&mut instrument, batch), FOUND);
        // Nothing is above it from below.
        assert_eq!(instrument.make(Call::Next { batch, key: 0 }).answer, Ok(Answer::Slide { key: 40, value: 48 }));
        // Not 15.
        assert_eq!(insert(&instrument, batch, 0), UNREAD);
        assert_eq!(insert(&instrument, batch, 40), Err(Refusal::Present));
        assert_eq!(instrument.make(Call::Delete { batch, key: 0 }).answer, DONE);
        assert_eq!(fetch_0(&mut instrument, batch), Err(Refusal::Absent));
        assert_eq!(insert(&instrument, batch, 0), UNREAD);
        let other = begin(&mut instrument);
        assert_eq!(fetch_0(&mut instrument, other), Err(Refusal::Held));
        // Not 14.
        assert_eq!(insert(&instrument, other, 0), UNREAD);
        assert_eq!(instrument.make(Call::Commit { batch }).answer, DONE);
        assert_eq!(fetch_0(&mut instrument, other), Err(Refusal::Absent));
        assert_eq!(insert(&instrument, other, 0), UNREAD);
    }
}

#[test]
fn an_abort_puts_slide_0_back() {
    for image in images(&filed()) {
        let mut instrument = restarted(&image);
        let batch = begin(&mut instrument);
        assert_eq!(instrument.make(Call::Delete { batch, key: 0 }).answer, DONE);
        assert_eq!(instrument.make(Call::Abort { batch }).answer, DONE);
        assert_eq!(of_key_0(&instrument, Kind::UndoDelete), 1);
        let batch = begin(&mut instrument);
        assert_eq!(fetch_0(&mut instrument, batch), FOUND);
        assert_eq!(instrument.make(Call::Delete { batch, key: 0 }).answer, DONE);
    }
}

/// A restart of the image, and one after a cut at each of its stores: slide 0 is as it should be.
fn check_restarts(image: &Areas, slide: Given) -> Instrument {
    let outcome = call(image, &Desk::empty(), Call::Restart);
    for carried_out in 0..=outcome.stores.len() {
        let mut instrument = Instrument { areas: image.clone(), cut: Some(carried_out), ..Instrument::default() };
        instrument.make(Call::Restart);
        let mut instrument = restarted(&instrument.areas);
        let batch = begin(&mut instrument);
        assert_eq!(fetch_0(&mut instrument, batch), slide, "cut after {carried_out} stores");
    }
    restarted(image)
}

#[test]
fn a_restart_puts_slide_0_back() {
    // Deleted by the version before, with the leaves joined for that, and by this one.
    let mut work = filed();
    let batch = begun(&mut work);
    write(&mut work, batch, Kind::Delete, 0);
    for image in images(&work) {
        let mut instrument = check_restarts(&image, FOUND);
        assert_eq!(of_key_0(&instrument, Kind::UndoDelete), 1);
        let batch = begin(&mut instrument);
        assert_eq!(instrument.make(Call::Delete { batch, key: 0 }).answer, DONE);
        assert_eq!(instrument.make(Call::WriteOut { page: 1 }).answer, DONE);
        let instrument = check_restarts(&instrument.areas, FOUND);
        assert_eq!(of_key_0(&instrument, Kind::UndoDelete), 2);
    }
}

#[test]
fn a_pending_insert_of_key_0_is_redone_and_undone() {
    let mut work = Work::formatted(PAGES, SLOTS);
    let batch = begun(&mut work);
    [5, 0].into_iter().for_each(|key| write(&mut work, batch, Kind::Insert, key));
    for image in images(&work) {
        let instrument = check_restarts(&image, Err(Refusal::Absent));
        assert_eq!(of_key_0(&instrument, Kind::UndoInsert), 1);
    }
}

#[test]
fn a_case_of_key_0_that_was_taken_back_is_redone() {
    let mut work = filed();
    let batch = begun(&mut work);
    [Kind::Delete, Kind::Insert, Kind::Delete].into_iter().for_each(|kind| write(&mut work, batch, kind, 0));
    take_back(&mut work, batch).expect("room");
    for image in images(&work) {
        let instrument = check_restarts(&image, FOUND);
        assert_eq!([Kind::UndoInsert, Kind::UndoDelete].map(|kind| of_key_0(&instrument, kind)), [1, 2]);
    }
}
