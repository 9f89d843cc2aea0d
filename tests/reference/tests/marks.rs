//! Request U2, take back the last tray only: a batch asks for its latest record as a mark, and later undoes what it did
//! after that and stays open. 20 is asked after 12; the undo is logged as abort's is, without 7 and 8.

use reference::bench::{Book, Instrument};
use reference::calls::{call, sound, write_update, Answer, Call, Outcome};
use reference::layout::{Areas, Desk, Entry, Kind, Pages, Record, Row};
use reference::log::{Batch, OpenBatches, Work};
use reference::sizes::{SLOT_BYTES, TOP};
use reference::Refusal;
use std::collections::BTreeSet;

type Given = Result<Answer, Refusal>;

const DONE: Given = Ok(Answer::Done);
const PAGES: usize = 160;
const SLOTS: usize = 800;

fn formatted(pages: usize, slots: usize) -> Instrument {
    let mut instrument = Instrument::lent(pages, slots);
    assert_eq!(instrument.make(Call::Format).answer, DONE);
    instrument
}

fn begin(instrument: &mut Instrument) -> u32 {
    match instrument.make(Call::Begin).answer {
        Ok(Answer::Batch(batch)) => batch,
        other => panic!("{other:?}"),
    }
}

fn insert(instrument: &mut Instrument, batch: u32, key: u32) -> Given {
    instrument.make(Call::Insert { batch, key, value: key + 1 }).answer
}

fn insert_all(instrument: &mut Instrument, batch: u32, keys: impl IntoIterator<Item = u32>) {
    keys.into_iter().for_each(|key| assert_eq!(insert(instrument, batch, key), DONE, "{key}"));
}

fn delete(instrument: &mut Instrument, batch: u32, key: u32) -> Given {
    instrument.make(Call::Delete { batch, key }).answer
}

fn fetch(instrument: &mut Instrument, batch: u32, key: u32) -> Given {
    instrument.make(Call::Fetch { batch, key }).answer
}

fn commit(instrument: &mut Instrument, batch: u32) {
    assert_eq!(instrument.make(Call::Commit { batch }).answer, DONE);
}

/// The batch's mark; asking for it is seen to change nothing.
fn mark(instrument: &Instrument, batch: u32) -> u32 {
    let outcome = instrument.outcome_of(Call::Mark { batch });
    let Ok(answer @ Answer::Mark(mark)) = outcome.answer else {
        panic!("{:?}", outcome.answer);
    };
    assert_eq!(outcome, Outcome::unchanged(&instrument.areas, &instrument.desk, answer));
    mark
}

/// What a return answers here; a refused one is seen to change nothing, and any to store nothing.
fn returned(instrument: &Instrument, batch: u32, mark: u32) -> Outcome {
    let Instrument { areas, desk, .. } = instrument;
    let outcome = instrument.outcome_of(Call::Return { batch, mark });
    if let Err(refusal) = outcome.answer {
        assert_eq!(outcome, Outcome::refused(areas, desk, refusal));
    }
    assert!(outcome.stores.is_empty() && outcome.desk.stored == desk.stored);
    assert!(outcome.areas.stable_log == areas.stable_log && outcome.areas.stable_pages == areas.stable_pages);
    outcome
}

/// A return that is not refused.
fn return_to(instrument: &mut Instrument, batch: u32, mark: u32) {
    let outcome = returned(instrument, batch, mark);
    assert_eq!(outcome.answer, DONE);
    (instrument.areas, instrument.desk) = (outcome.areas, outcome.desk);
}

fn work_of(areas: &Areas, desk: &Desk) -> Work {
    sound(areas, desk).expect("sound").work
}

fn open_batch(instrument: &Instrument, batch: u32) -> Batch {
    work_of(&instrument.areas, &instrument.desk).open.find(batch).cloned().expect("the batch is open")
}

fn keys_of(instrument: &Instrument) -> Vec<u32> {
    let slides = sound(&instrument.areas, &instrument.desk).expect("sound").slides;
    slides.iter().map(|slide| slide.key).collect()
}

/// The records of batches that were written after this number, and none of the tree's.
fn records_after(instrument: &Instrument, number: u32) -> Vec<Record> {
    let new = work_of(&instrument.areas, &instrument.desk).log.records.split_off(number as usize);
    new.into_iter().filter(|record| record.kind < Kind::Split).collect()
}

fn kinds_after(instrument: &Instrument, number: u32) -> Vec<Kind> {
    records_after(instrument, number).iter().map(|record| record.kind).collect()
}

/// Five slides, committed.
fn filed() -> Instrument {
    let mut instrument = formatted(PAGES, SLOTS);
    let batch = begin(&mut instrument);
    insert_all(&mut instrument, batch, [100, 200, 300, 400, 500]);
    commit(&mut instrument, batch);
    instrument
}

/// A case that fills three trays.
struct Trays {
    instrument: Instrument,
    batch: u32,
    /// The marks before each tray, and after the last.
    marks: [u32; 4],
}

fn three_trays() -> Trays {
    let mut instrument = filed();
    let batch = begin(&mut instrument);
    let mut marks = [mark(&instrument, batch); 4];
    for tray in 0..3 {
        fill(&mut instrument, batch, tray);
        marks[tray as usize + 1] = mark(&instrument, batch);
    }
    Trays { instrument, batch, marks }
}

/// Four slides are put in, and one that is filed is taken out.
fn fill(instrument: &mut Instrument, batch: u32, tray: u32) {
    insert_all(instrument, batch, (1..=4).map(|slide| 10 * tray + slide));
    assert_eq!(delete(instrument, batch, 100 * (tray + 1)), DONE);
}

/// The keys that are there with so many trays.
fn keys_with(trays: u32) -> Vec<u32> {
    let put_in = (0..trays).flat_map(|tray| (1..=4).map(move |slide| 10 * tray + slide));
    put_in.chain((trays + 1..=5).map(|key| 100 * key)).collect()
}

#[test]
fn the_numbers_are_19_and_20() {
    assert_eq!([Refusal::UndoShort, Refusal::NoMark].map(Refusal::number), [19, 20]);
}

#[test]
fn a_mark_is_the_batchs_latest_record() {
    let mut instrument = formatted(PAGES, SLOTS);
    let (batch, other) = (begin(&mut instrument), begin(&mut instrument));
    assert_eq!([mark(&instrument, batch), mark(&instrument, other)], [1, 2]);
    insert_all(&mut instrument, batch, 1..=14);
    assert_eq!([mark(&instrument, batch), mark(&instrument, other)], [16, 2]);
    // Record 17 is a split, which is of no batch.
    insert_all(&mut instrument, batch, [15]);
    assert_eq!([mark(&instrument, batch), mark(&instrument, other)], [18, 2]);
    insert_all(&mut instrument, other, [50]);
    let last = instrument.desk.written;
    assert_eq!([mark(&instrument, batch), mark(&instrument, other)], [18, last]);
    // An undo is a record of the batch too.
    return_to(&mut instrument, batch, 16);
    assert_eq!([mark(&instrument, batch), mark(&instrument, other)], [instrument.desk.written, last]);
}

#[test]
fn the_last_tray_is_taken_back_and_filled_again() {
    let Trays { mut instrument, batch, marks } = three_trays();
    assert_eq!(keys_of(&instrument), keys_with(3));
    let (pending, written) = (open_batch(&instrument, batch).pending, instrument.desk.written);
    return_to(&mut instrument, batch, marks[2]);
    assert_eq!(keys_of(&instrument), keys_with(2));
    // Newest first, without 7 and 8. Each names the next to undo after it; the last one the newest that is kept.
    let undos = records_after(&instrument, written);
    assert_eq!(undos.len(), 5);
    for (undo, place) in undos.iter().zip((10..15).rev()) {
        let (update, next) = (pending[place], pending[place - 1].number);
        let (kind, second) =
            if update.kind == Kind::Insert { (Kind::UndoInsert, 0) } else { (Kind::UndoDelete, update.value) };
        assert_eq!((undo.kind, undo.batch, undo.previous), (kind, batch, next));
        assert_eq!((undo.key, undo.second), (update.key, second));
    }
    // The batch stays open with what it kept.
    assert_eq!(open_batch(&instrument, batch).pending, pending[..10]);
    let row = Row { batch, last: instrument.desk.written, next_to_undo: marks[2], pending: 10 };
    assert_eq!(instrument.desk.rows[0], row);
    fill(&mut instrument, batch, 2);
    commit(&mut instrument, batch);
    assert_eq!(keys_of(&instrument), keys_with(3));
}

#[test]
fn trays_are_taken_back_one_after_another_and_all_at_once() {
    for marks_used in [&[2, 1, 0][..], &[1, 0], &[2, 0], &[0]] {
        let Trays { mut instrument, batch, marks } = three_trays();
        assert_eq!(marks[0], batch);
        let written = instrument.desk.written;
        for used in marks_used {
            return_to(&mut instrument, batch, marks[*used]);
            assert_eq!(keys_of(&instrument), keys_with(*used as u32));
        }
        let undos = records_after(&instrument, written);
        assert!(undos.len() == 15 && undos[14].previous == 0, "0 where nothing is left to undo");
        let row = Row { batch, last: undos[14].own, next_to_undo: 0, pending: 0 };
        assert_eq!(instrument.desk.rows[0], row);
    }
}

#[test]
fn a_return_with_nothing_above_the_mark_changes_nothing() {
    let Trays { mut instrument, batch, marks } = three_trays();
    let unchanged = |of: &Instrument| Outcome::unchanged(&of.areas, &of.desk, Answer::Done);
    assert_eq!(returned(&instrument, batch, marks[3]), unchanged(&instrument));
    return_to(&mut instrument, batch, marks[1]);
    // To the same mark again, to a stale mark above it, and to the record of the last undo.
    for mark in [marks[1], marks[2], marks[3], mark(&instrument, batch)] {
        assert_eq!(returned(&instrument, batch, mark), unchanged(&instrument));
    }
    let other = begin(&mut instrument);
    assert_eq!(returned(&instrument, other, other), unchanged(&instrument));
}

#[test]
fn a_stale_mark_still_stands_for_its_moment() {
    let Trays { mut instrument, batch, marks } = three_trays();
    return_to(&mut instrument, batch, marks[1]);
    fill(&mut instrument, batch, 1);
    fill(&mut instrument, batch, 2);
    // The record of this mark was taken back; what was done since comes after it.
    return_to(&mut instrument, batch, marks[2]);
    assert_eq!(keys_of(&instrument), keys_with(1));
    assert_eq!(open_batch(&instrument, batch).next_to_undo(), marks[1]);
}

#[test]
fn a_freed_key_is_taken_by_another_case() {
    let mut instrument = filed();
    let (batch, other) = (begin(&mut instrument), begin(&mut instrument));
    insert_all(&mut instrument, batch, [5]);
    let kept = mark(&instrument, batch);
    insert_all(&mut instrument, batch, [6]);
    assert_eq!([delete(&mut instrument, batch, 5), delete(&mut instrument, batch, 100)], [DONE; 2]);
    for key in [5, 6, 100] {
        assert_eq!(fetch(&mut instrument, other, key), Err(Refusal::Held));
    }
    return_to(&mut instrument, batch, kept);
    // One of the two updates of key 5 is kept.
    assert_eq!(fetch(&mut instrument, other, 5), Err(Refusal::Held));
    assert_eq!(fetch(&mut instrument, batch, 5), Ok(Answer::Value(6)));
    assert_eq!(fetch(&mut instrument, other, 6), Err(Refusal::Absent));
    assert_eq!(instrument.make(Call::Next { batch: other, key: 5 }).answer, Ok(Answer::Slide { key: 100, value: 101 }));
    assert_eq!([insert(&mut instrument, other, 6), delete(&mut instrument, other, 100)], [DONE; 2]);
    for key in [6, 100] {
        assert_eq!(fetch(&mut instrument, batch, key), Err(Refusal::Held));
    }
    // The other case's slides are none of this one's.
    return_to(&mut instrument, batch, batch);
    assert_eq!(keys_of(&instrument), [6, 200, 300, 400, 500]);
    commit(&mut instrument, other);
    assert_eq!(fetch(&mut instrument, batch, 6), Ok(Answer::Value(7)));
}

#[test]
fn a_mark_is_any_record_of_the_batch_and_no_other() {
    let Trays { mut instrument, batch, marks } = three_trays();
    let other = begin(&mut instrument);
    insert_all(&mut instrument, other, [50]);
    return_to(&mut instrument, batch, marks[2]);
    fill(&mut instrument, batch, 2);
    let records = work_of(&instrument.areas, &instrument.desk).log.records;
    let pending = open_batch(&instrument, batch).pending;
    let mut met = BTreeSet::new();
    for Record { own, kind, batch: of, .. } in records {
        let outcome = returned(&instrument, batch, own);
        met.insert((kind, outcome.answer.is_ok()));
        if of != batch {
            assert_eq!(outcome.answer, Err(Refusal::NoMark), "record {own}, {kind:?}");
            continue;
        }
        let left = work_of(&outcome.areas, &outcome.desk).open.find(batch).cloned().expect("it stays open").pending;
        assert!(left.iter().eq(pending.iter().filter(|update| update.number <= own)), "record {own}, {kind:?}");
    }
    let others = [Kind::Begin, Kind::Insert, Kind::Commit, Kind::Split].map(|kind| (kind, false));
    let its_own =
        [Kind::Begin, Kind::Insert, Kind::Delete, Kind::UndoInsert, Kind::UndoDelete].map(|kind| (kind, true));
    assert!(others.iter().chain(&its_own).all(|wanted| met.contains(wanted)), "{met:?}");
    let written = instrument.desk.written;
    for none in [0, written + 1, written + 2, SLOTS as u32, SLOTS as u32 + 1, TOP] {
        assert_eq!(returned(&instrument, batch, none).answer, Err(Refusal::NoMark), "{none}");
    }
}

/// What a mark answers, and returns to each of these.
fn all_answers(instrument: &Instrument, batch: u32, marks: &[u32]) -> Vec<Given> {
    let marked = instrument.outcome_of(Call::Mark { batch });
    if let Err(refusal) = marked.answer {
        assert_eq!(marked, Outcome::refused(&instrument.areas, &instrument.desk, refusal));
    }
    [marked.answer].into_iter().chain(marks.iter().map(|mark| returned(instrument, batch, *mark).answer)).collect()
}

#[test]
fn the_checks_go_1_11_12_20() {
    let Trays { mut instrument, batch, marks } = three_trays();
    let ended = begin(&mut instrument);
    commit(&mut instrument, ended);
    let tried = [batch, marks[2], ended, ended + 1, 0, TOP];
    for area in 0..4 {
        let mut longer = instrument.clone();
        longer.areas.each_mut()[area].push(0);
        let mut unsound = longer.clone();
        unsound.desk = Desk::empty();
        for batch in [batch, ended, 0, 99, TOP] {
            assert_eq!(all_answers(&longer, batch, &tried), [Err(Refusal::Lengths); 7]);
            assert_eq!(all_answers(&unsound, batch, &tried), [Err(Refusal::Lengths); 7]);
        }
    }
    let mut unsound = [(); 4].map(|()| instrument.clone());
    unsound[0].areas.working_pages[200] ^= 1;
    unsound[1].areas.working_log[30] ^= 1;
    unsound[2].desk.written += 1;
    unsound[3].areas.stable_log[0] ^= 1;
    for unsound in unsound {
        for batch in [batch, ended, 0, 99, TOP] {
            assert_eq!(all_answers(&unsound, batch, &tried), [Err(Refusal::Unsound); 7]);
        }
    }
    // A batch that has ended: also where the mark is one of its records.
    for batch in [ended, 1, 0, 99, TOP] {
        assert_eq!(all_answers(&instrument, batch, &tried), [Err(Refusal::NoBatch); 7]);
    }
}

/// A sound register whose one open batch has its 7, as between redo and undo of a restart: three updates are pending.
fn with_abort_mark() -> (Instrument, u32) {
    let mut instrument = formatted(PAGES, SLOTS);
    let mut work = Work::formatted(PAGES, SLOTS);
    work.write(Record::new(Kind::Begin)).expect("room");
    let batch = work.log.last_number();
    for key in [5, 6, 7] {
        write_update(&mut work, batch, Kind::Insert, Entry::new(key, key)).expect("room");
    }
    work.write_about_batch(Kind::AbortMark, batch).expect("room");
    instrument.areas.working_pages = work.pages.bytes();
    instrument.areas.working_log = work.log.bytes();
    instrument.desk = work.open.desk(work.log.last_number(), 0);
    (instrument, batch)
}

#[test]
fn a_batch_with_its_abort_mark_may_mark_and_return() {
    let (mut instrument, batch) = with_abort_mark();
    let seven = instrument.desk.written;
    assert_eq!(mark(&instrument, batch), seven);
    let unchanged = Outcome::unchanged(&instrument.areas, &instrument.desk, Answer::Done);
    assert_eq!(
        returned(&instrument, batch, seven),
        unchanged,
        "the 7 is a record of the batch, and nothing is above it"
    );
    for (mark, left) in [(3, &[5, 6][..]), (batch, &[])] {
        return_to(&mut instrument, batch, mark);
        assert_eq!(keys_of(&instrument), left);
    }
    assert_eq!(kinds_after(&instrument, seven), [Kind::UndoInsert; 3]);
    // It stays open without an 8, and what writes other records is refused as before.
    assert!(open_batch(&instrument, batch).marked);
    let key = 5;
    for made in [
        Call::Insert { batch, key, value: 5 },
        Call::Delete { batch, key },
        Call::Commit { batch },
        Call::Abort { batch },
    ] {
        assert_eq!(instrument.make(made).answer, Err(Refusal::NoBatch), "{made:?}");
    }
    assert_eq!(instrument.make(Call::WriteOut { page: 1 }).answer, DONE);
    let restarted = instrument.make(Call::Restart);
    assert!(matches!(restarted.answer, Ok(Answer::Restarted { ended: 1, .. })), "{restarted:?}");
    assert_eq!(kinds_after(&instrument, seven + 3), [Kind::End]);
}

#[test]
fn an_abort_after_a_return_undoes_the_rest() {
    let Trays { mut instrument, batch, marks } = three_trays();
    return_to(&mut instrument, batch, marks[2]);
    fill(&mut instrument, batch, 2);
    return_to(&mut instrument, batch, marks[1]);
    let written = instrument.desk.written;
    assert_eq!(instrument.make(Call::Abort { batch }).answer, DONE);
    let (inserts, delete) = ([Kind::UndoInsert; 4], [Kind::UndoDelete]);
    let wanted = [&[Kind::AbortMark][..], &delete, &inserts, &[Kind::End]].concat();
    assert_eq!(kinds_after(&instrument, written), wanted);
    assert_eq!(keys_of(&instrument), keys_with(0));
    assert_eq!(instrument.desk.rows[0], Row::default());
}

#[test]
fn a_return_goes_from_the_root() {
    let mut instrument = filed();
    let batch = begin(&mut instrument);
    insert_all(&mut instrument, batch, [450]);
    let page = records_after(&instrument, instrument.desk.written - 1)[0].a;
    // Another case splits the leaf, and slide 450 moves to the new half.
    let other = begin(&mut instrument);
    insert_all(&mut instrument, other, 101..=110);
    commit(&mut instrument, other);
    return_to(&mut instrument, batch, batch);
    let undo = records_after(&instrument, instrument.desk.written - 1).remove(0);
    assert!(undo.kind == Kind::UndoInsert && undo.key == 450 && undo.a != page, "{undo:?}");
    assert_eq!(keys_of(&instrument).len(), 15);
}

#[test]
fn a_return_gives_back_the_room_that_was_kept_for_undoing() {
    let mut instrument = formatted(16, 1024);
    let batch = begin(&mut instrument);
    for key in [1, 2, 3] {
        assert_eq!(insert(&mut instrument, batch, key), DONE);
        assert_eq!(insert(&mut instrument, batch, 9), Err(Refusal::PagesShort));
        return_to(&mut instrument, batch, batch);
    }
}

#[test]
fn the_reserves_suffice_for_a_return() {
    let Trays { mut instrument, batch, marks } = three_trays();
    while let Ok(Answer::Batch(other)) = instrument.make(Call::Begin).answer {
        commit(&mut instrument, other);
    }
    assert_eq!(instrument.make(Call::Begin).answer, Err(Refusal::SlotsShort));
    for mark in [marks[1], marks[0]] {
        return_to(&mut instrument, batch, mark);
    }
    assert_eq!(keys_of(&instrument), keys_with(0));
}

/// An instrument and the book that is kept beside it.
struct Kept {
    instrument: Instrument,
    book: Option<Book>,
}

impl Kept {
    fn make(&mut self, made: Call) -> Given {
        let event = self.instrument.make(made);
        self.book = Book::after(self.book.take(), &event, &self.instrument.desk);
        event.answer
    }

    fn make_all(&mut self, calls: &[Call]) {
        calls.iter().for_each(|made| assert_eq!(self.make(*made), DONE, "{made:?}"));
    }

    /// Cut a call before its first store and after each, and the restart after it too: the next leaves the book's slides.
    fn check_cuts(&self, made: Call) {
        let stores = self.instrument.outcome_of(made).stores.len();
        for carried_out in 0..=stores {
            let mut instrument = Instrument { cut: Some(carried_out), ..self.instrument.clone() };
            let event = instrument.make(made);
            let book = Book::after(self.book.clone(), &event, &instrument.desk).expect("a book");
            instrument.cut = Some(carried_out / 2);
            instrument.make(Call::Restart);
            assert!(instrument.make(Call::Restart).answer.is_ok());
            let slides = sound(&instrument.areas, &instrument.desk).expect("sound").slides;
            let slides = slides.iter().map(|slide| (slide.key, slide.value));
            assert!(slides.eq(book.slides.clone()), "{made:?} cut after {carried_out} of {stores} stores");
        }
    }
}

/// A tray's four slides and the one that is taken out for it.
fn tray_calls(batch: u32, tray: u32) -> Vec<Call> {
    let slides = (1..=4).map(|slide| Call::Insert { batch, key: 10 * tray + slide, value: 7 });
    slides.chain([Call::Delete { batch, key: 100 * (tray + 1) }]).collect()
}

/// A case after its second tray was taken back, filled, and taken back with the first one; a tray was filled since. With
/// the cuts of a commit and of a write-out on the way.
fn taken_back_twice() -> (Kept, u32) {
    let mut kept = Kept { instrument: formatted(PAGES, SLOTS), book: Some(Book::default()) };
    assert_eq!(kept.make(Call::Begin), Ok(Answer::Batch(1)));
    kept.make_all(&[100, 200, 300, 400, 500].map(|key| Call::Insert { batch: 1, key, value: key }));
    kept.make_all(&[Call::Commit { batch: 1 }]);
    let Ok(Answer::Batch(batch)) = kept.make(Call::Begin) else {
        panic!("no batch");
    };
    kept.make_all(&tray_calls(batch, 0));
    let Ok(Answer::Mark(mark)) = kept.make(Call::Mark { batch }) else {
        panic!("no mark");
    };
    kept.make_all(&tray_calls(batch, 1));
    for (mark, tray) in [(mark, 1), (batch, 2)] {
        kept.make_all(&[Call::Return { batch, mark }]);
        kept.check_cuts(Call::WriteOut { page: 1 });
        kept.check_cuts(Call::Commit { batch });
        kept.make_all(&tray_calls(batch, tray));
    }
    (kept, batch)
}

#[test]
fn a_commit_after_returns_files_what_was_kept_wherever_it_is_cut() {
    let (mut kept, batch) = taken_back_twice();
    kept.check_cuts(Call::Commit { batch });
    kept.make_all(&[Call::Commit { batch }]);
    assert_eq!(keys_of(&kept.instrument), [21, 22, 23, 24, 100, 200, 400, 500]);
    kept.check_cuts(Call::WriteOut { page: 1 });
}

#[test]
fn an_abort_after_returns_files_nothing_wherever_its_records_are_cut() {
    let (mut kept, batch) = taken_back_twice();
    kept.make_all(&[Call::Abort { batch }]);
    assert_eq!(keys_of(&kept.instrument), keys_with(0));
    kept.check_cuts(Call::WriteOut { page: 0 });
}

#[test]
fn a_restart_ends_a_case_partly_taken_back() {
    let Trays { mut instrument, batch, marks } = three_trays();
    return_to(&mut instrument, batch, marks[1]);
    fill(&mut instrument, batch, 1);
    let work = work_of(&instrument.areas, &instrument.desk);
    let first_commit = 7;
    let stable_pages = Pages::formatted(PAGES).bytes();
    for stored in first_commit..=work.log.records.len() {
        let mut areas = Areas { stable_pages: stable_pages.clone(), ..instrument.areas.clone() };
        areas.stable_log = areas.working_log.clone();
        areas.stable_log[stored * SLOT_BYTES..].fill(0);
        let open = OpenBatches::after(&work.log.records[..stored]).expect("a chain").list;
        let outcome = call(&areas, &Desk::empty(), Call::Restart);
        assert!(matches!(outcome.answer, Ok(Answer::Restarted { ended, .. }) if ended as usize == open.len()));
        let restarted = Instrument { areas: outcome.areas, desk: outcome.desk, cut: None };
        assert_eq!(keys_of(&restarted), keys_with(0), "{stored} records stored");
        let undone: Vec<u32> = records_after(&restarted, stored as u32)
            .iter()
            .filter(|record| matches!(record.kind, Kind::UndoInsert | Kind::UndoDelete))
            .map(|record| record.key)
            .collect();
        let wanted = open.iter().flat_map(|open| open.pending.iter().rev()).map(|update| update.key);
        assert!(wanted.eq(undone), "{stored} records stored");
    }
}
