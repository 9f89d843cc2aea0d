//! The batch chain: which records may follow which. And a batch that has its abort mark in sound areas, which no call
//! leaves but none excludes.

use reference::calls::{call, sound, Answer, Call};
use reference::layout::{Areas, Desk, Kind, Record};
use reference::log::{OpenBatches, Work};
use reference::sizes::{FEWEST_PAGES, FEWEST_SLOTS, PAGE_BYTES, SLOT_BYTES};
use reference::Refusal;

/// A record about batch 1, by its kind and the record it names as previous.
fn about(kind: Kind, previous: u32) -> Record {
    Record { batch: 1, previous, ..Record::new(kind) }
}

fn update(kind: Kind, previous: u32, key: u32, value: u32) -> Record {
    Record { key, second: value, ..about(kind, previous) }
}

/// Whether the chain allows these records after a begin of batch 1; the first is record 2.
fn allowed(records: &[Record]) -> bool {
    let begin = Record { batch: 1, ..Record::new(Kind::Begin) };
    let numbered = std::iter::once(&begin).chain(records).zip(1..);
    let log: Vec<Record> = numbered.map(|(record, own)| Record { own, ..record.clone() }).collect();
    OpenBatches::after(&log).is_ok()
}

#[test]
fn a_batch_starts_with_its_begin_and_names_its_previous_record() {
    assert!(allowed(&[update(Kind::Insert, 1, 5, 50), update(Kind::Delete, 2, 5, 50), about(Kind::Commit, 3)]));
    assert!(!allowed(&[update(Kind::Insert, 0, 5, 50)]));
    assert!(!allowed(&[update(Kind::Insert, 1, 5, 50), about(Kind::Commit, 1)]));
    assert!(!allowed(&[Record { batch: 7, ..update(Kind::Insert, 1, 5, 50) }]));
    assert!(!allowed(&[Record { batch: 0, ..update(Kind::Insert, 0, 5, 50) }]));
}

#[test]
fn an_undo_takes_back_the_newest_pending_update() {
    let two = [update(Kind::Insert, 1, 5, 50), update(Kind::Delete, 2, 6, 60)];
    let after = |undo: Record| allowed(&[two[0].clone(), two[1].clone(), undo]);
    assert!(after(update(Kind::UndoDelete, 2, 6, 60)), "before any abort mark too");
    assert!(!after(update(Kind::UndoDelete, 3, 6, 60)), "previous is the next to undo afterwards");
    assert!(!after(update(Kind::UndoDelete, 2, 7, 60)));
    assert!(!after(update(Kind::UndoDelete, 2, 6, 61)));
    assert!(!after(update(Kind::UndoInsert, 2, 6, 0)));
    assert!(!after(update(Kind::UndoInsert, 1, 5, 0)), "not the newest");
    let undone = [two[0].clone(), update(Kind::UndoInsert, 0, 5, 0)];
    assert!(allowed(&[undone[0].clone(), undone[1].clone(), update(Kind::Insert, 3, 5, 51)]));
    assert!(!allowed(&[undone[0].clone(), undone[1].clone(), update(Kind::UndoInsert, 0, 5, 0)]));
}

#[test]
fn an_abort_mark_is_followed_by_undos_and_an_end_alone() {
    let insert = update(Kind::Insert, 1, 5, 50);
    let mark = about(Kind::AbortMark, 2);
    let after = |record: Record| allowed(&[insert.clone(), mark.clone(), record]);
    assert!(after(update(Kind::UndoInsert, 0, 5, 0)));
    assert!(!after(update(Kind::Insert, 3, 6, 60)));
    assert!(!after(update(Kind::Delete, 3, 5, 50)));
    assert!(!after(about(Kind::Commit, 3)));
    assert!(!after(about(Kind::AbortMark, 3)));
    assert!(!after(about(Kind::End, 3)), "something is pending");
}

#[test]
fn nothing_follows_a_commit_or_an_end() {
    for last in [about(Kind::Commit, 1), about(Kind::End, 1)] {
        assert!(allowed(&[last.clone()]), "an end without an abort mark too");
        for next in [update(Kind::Insert, 2, 5, 50), about(Kind::AbortMark, 2), about(Kind::End, 2)] {
            assert!(!allowed(&[last.clone(), next]));
        }
    }
}

#[test]
fn more_than_eight_open_batches_are_seen_after_every_record() {
    let begins = |count: u32| (2..=count).map(|own| Record { batch: own, ..Record::new(Kind::Begin) });
    assert!(allowed(&begins(8).collect::<Vec<_>>()));
    let ninth: Vec<Record> = begins(9).chain([about(Kind::Commit, 1)]).collect();
    assert!(!allowed(&ninth), "though only eight are left at the end");
}

/// A sound register with batch 1 open, which has its abort mark, and slide 5 put in by it.
fn marked_batch() -> (Areas, Desk) {
    let mut areas = Areas {
        working_pages: vec![0; FEWEST_PAGES * PAGE_BYTES],
        stable_pages: vec![0; FEWEST_PAGES * PAGE_BYTES],
        working_log: vec![0; 2 * FEWEST_SLOTS * SLOT_BYTES],
        stable_log: vec![0; 2 * FEWEST_SLOTS * SLOT_BYTES],
    };
    areas = call(&areas, &Desk::empty(), Call::Format).areas;
    let mut work = Work::read_working(&areas.working_pages, &areas.working_log).expect("formatted");
    work.write(Record::new(Kind::Begin)).expect("room");
    work.write(Record { a: 1, ..update(Kind::Insert, 1, 5, 50) }).expect("room");
    work.write(about(Kind::AbortMark, 2)).expect("room");
    areas.working_pages = work.pages.bytes();
    areas.working_log = work.log.bytes();
    (areas, work.open.desk(3, 0))
}

#[test]
fn a_marked_batch_reads_but_does_not_write() {
    let (areas, desk) = marked_batch();
    assert!(sound(&areas, &desk).is_some());
    let answer = |made: Call| call(&areas, &desk, made).answer;
    let batch = 1;
    assert_eq!(answer(Call::Fetch { batch, key: 5 }), Ok(Answer::Value(50)));
    assert_eq!(answer(Call::Next { batch, key: 4 }), Ok(Answer::Slide { key: 5, value: 50 }));
    assert_eq!(answer(Call::Previous { batch, key: 6 }), Ok(Answer::Slide { key: 5, value: 50 }));
    for writes in [
        Call::Insert { batch, key: 6, value: 60 },
        Call::Delete { batch, key: 5 },
        Call::Commit { batch },
        Call::Abort { batch },
    ] {
        assert_eq!(answer(writes), Err(Refusal::NoBatch));
    }
}
