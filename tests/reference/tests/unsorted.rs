//! What refusal 5 asks where entries do not rise: of a forged leaf or index page, and of pages that take or give entries.

use reference::calls::{call, Answer, Call, Outcome};
use reference::layout::{Areas, Desk, Entry, Kind, Page, PageKind, Pages, Record};
use reference::log::{redo, Log};
use reference::sizes::{ROOT, TOP};
use reference::tree::slides_of;
use reference::Refusal;

const LEFT: usize = 4;
const RIGHT: usize = 5;

fn entries(keys: &[u32]) -> Vec<Entry> {
    keys.iter().map(|key| Entry::new(*key, key + 100)).collect()
}

/// A page of this level that no record has changed yet.
fn page(own: usize, level: usize, right: usize, keys: &[u32]) -> Page {
    Page { kind: PageKind::at_level(level), level, right, left: 0, high: TOP, log: 0, own, entries: entries(keys) }
}

/// A register of one leaf.
fn leaf(keys: &[u32]) -> Pages {
    let mut pages = Pages::formatted(16);
    pages.list[ROOT] = page(ROOT, 0, 0, keys);
    pages
}

/// A log that begins batch 1 and goes on with these records of it, on the root.
fn log(of_batch: &[(Kind, u32)]) -> Vec<Record> {
    let mut records = vec![Record { own: 1, batch: 1, ..Record::new(Kind::Begin) }];
    for (kind, key) in of_batch {
        let last = records.len() as u32;
        let mut record = Record { own: last + 1, batch: 1, previous: last, ..Record::new(*kind) };
        if *kind < Kind::Commit {
            (record.a, record.key, record.second) = (ROOT, *key, key + 100);
        }
        records.push(record);
    }
    records
}

fn restart(pages: &Pages, records: &[Record]) -> Outcome {
    let (pages, log) = (pages.bytes(), Log { records: records.to_vec(), slots: 64 }.bytes());
    let areas = Areas { working_pages: pages.clone(), stable_pages: pages, working_log: log.clone(), stable_log: log };
    call(&areas, &Desk::empty(), Call::Restart)
}

/// The refusal of a restart with this leaf and these records of one batch.
fn refusal(keys: &[u32], of_batch: &[(Kind, u32)]) -> Option<Refusal> {
    restart(&leaf(keys), &log(of_batch)).answer.err()
}

#[test]
fn an_insert_asks_that_its_key_stands_nowhere() {
    assert_eq!(refusal(&[30, 10, 20], &[(Kind::Insert, 10)]), Some(Refusal::Redo));
    assert_eq!(refusal(&[30, 10, 20], &[(Kind::Insert, 20)]), Some(Refusal::Redo));
    assert_eq!(refusal(&[30, 10, 20], &[(Kind::Insert, 30)]), Some(Refusal::Redo));
    // The key is not there: it is redone, and only then are the entries found out of order.
    assert_eq!(refusal(&[30, 10, 20], &[(Kind::Insert, 15)]), Some(Refusal::Tree));
}

#[test]
fn an_undo_delete_asks_that_its_key_stands_nowhere() {
    let mut undone = log(&[(Kind::Delete, 10), (Kind::AbortMark, 0), (Kind::UndoDelete, 10)]);
    undone[3].previous = 0;
    let on = |keys: &[u32]| {
        let mut pages = leaf(keys);
        // The delete was stored with the page, so that only the undo is redone.
        pages.list[ROOT].log = 2;
        restart(&pages, &undone).answer.err()
    };
    assert_eq!(on(&[30, 10, 20]), Some(Refusal::Redo));
    assert_eq!(on(&[30, 20]), Some(Refusal::Tree));
    assert_eq!(on(&[20, 30]), None);
}

#[test]
fn a_committed_delete_is_not_silently_undone() {
    let committed = [(Kind::Insert, 10), (Kind::Delete, 30), (Kind::Delete, 10), (Kind::Commit, 0)];
    // With 10 inserted a second time, the deletes would leave 10 and 20 in order, and the slide deleted last in its place.
    assert_eq!(refusal(&[30, 10, 20], &committed), Some(Refusal::Redo));
    let outcome = restart(&leaf(&[30, 20]), &log(&committed));
    assert_eq!(outcome.answer, Ok(Answer::Restarted { ended: 0, changes: 3 }));
    let left = Pages::read_working(&outcome.areas.working_pages).and_then(|pages| slides_of(&pages));
    assert_eq!(left.expect("a tree"), entries(&[20]));
}

#[test]
fn a_delete_or_undo_insert_meets_its_entry_by_the_one_search() {
    let mut pages = leaf(&[30, 10, 20]);
    // The insert was stored with the page, so that only its undo is redone.
    pages.list[ROOT].log = 2;
    for (key, expected) in [(10, Some(Refusal::Redo)), (20, Some(Refusal::Redo)), (30, None)] {
        assert_eq!(refusal(&[30, 10, 20], &[(Kind::Delete, key)]), expected, "delete {key}");
        let mut undone = log(&[(Kind::Insert, key), (Kind::UndoInsert, key)]);
        (undone[2].previous, undone[2].second) = (0, 0);
        assert_eq!(restart(&pages, &undone).answer.err(), expected, "undo-insert {key}");
    }
}

/// Redo one record; answers whether it was refused.
fn is_refused(pages: &Pages, record: &Record) -> bool {
    match redo(&mut pages.clone(), std::slice::from_ref(record)) {
        Ok(_) => false,
        Err(fault) => {
            assert_eq!(fault.refusal, Refusal::Redo);
            true
        }
    }
}

/// Whether this page refuses its part of a record. All others have been stored with the change.
fn page_refuses(page: Page, record: &Record) -> bool {
    let mut pages = Pages::formatted(16);
    pages.list.iter_mut().for_each(|other| other.log = record.own);
    let own = page.own;
    pages.list[own] = page;
    is_refused(&pages, record)
}

/// A record of this kind from `LEFT` to `RIGHT` that moves these entries.
fn moving(kind: Kind, key: u32, moved: &[u32]) -> Record {
    Record { own: 1, a: LEFT, b: RIGHT, key, entries: entries(moved), ..Record::new(kind) }
}

#[test]
fn an_addition_asks_for_a_leaf_with_room() {
    let insert = Record { own: 2, a: LEFT, key: 15, ..Record::new(Kind::Insert) };
    let falling: Vec<u32> = (1..=14).rev().collect();
    assert!(page_refuses(page(LEFT, 0, 0, &falling), &insert), "14 entries");
    assert!(!page_refuses(page(LEFT, 0, 0, &falling[1..]), &insert), "13 entries");
    assert!(page_refuses(page(LEFT, 1, 0, &falling[1..]), &insert), "an index");
}

#[test]
fn of_a_key_that_stands_twice_the_first_is_looked_at() {
    let twice = [Entry::new(10, 6), Entry::new(10, 7), Entry::new(20, 8)];
    let refuses = |level, kind, [key, second]: [u32; 2], [b, c]: [usize; 2]| {
        let record = Record { own: 2, a: LEFT, b, c, key, second, ..Record::new(kind) };
        page_refuses(Page { entries: twice.to_vec(), ..page(LEFT, level, 0, &[]) }, &record)
    };
    assert!(!refuses(0, Kind::Delete, [10, 6], [0, 0]), "a delete of the first");
    assert!(refuses(0, Kind::Delete, [10, 7], [0, 0]), "a delete of the second");
    assert!(!refuses(0, Kind::UndoInsert, [10, 0], [0, 0]), "an undo-insert");
    assert!(refuses(0, Kind::Insert, [10, 9], [0, 0]), "an insert");
    assert!(!refuses(1, Kind::Link, [5, 10], [6, 9]), "a link at the first");
    assert!(refuses(1, Kind::Link, [5, 10], [7, 9]), "a link at the second");
    assert!(!refuses(1, Kind::Unlink, [10, 10], [6, 7]), "an unlink of both");
    assert!(refuses(1, Kind::Unlink, [10, 20], [7, 8]), "an unlink from the second on");
}

#[test]
fn a_link_or_unlink_meets_its_entries_by_the_one_search() {
    let mut pages = Pages::formatted(16);
    pages.list[LEFT] = page(LEFT, 1, 0, &[30, 10, 20]);
    let record = |kind, key, second, b, c| Record { own: 1, a: LEFT, b, c, key, second, ..Record::new(kind) };
    assert!(is_refused(&pages, &record(Kind::Link, 5, 10, 110, 9)));
    assert!(is_refused(&pages, &record(Kind::Link, 15, 20, 120, 9)));
    assert!(!is_refused(&pages, &record(Kind::Link, 25, 30, 130, 9)));
    assert!(is_refused(&pages, &record(Kind::Unlink, 10, 20, 110, 120)));
    assert!(!is_refused(&pages, &record(Kind::Unlink, 30, 10, 130, 110)));
    // The search is for an unlink's key, not for its second.
    pages.list[LEFT] = page(LEFT, 1, 0, &[10, 30, 20]);
    assert!(!is_refused(&pages, &record(Kind::Unlink, 30, 20, 130, 120)));
    pages.list[LEFT] = page(LEFT, 1, 0, &[15, 10, 20]);
    assert!(is_refused(&pages, &record(Kind::Unlink, 10, 20, 110, 120)));
}

#[test]
fn the_key_of_a_link_lies_between_two_entries_alone() {
    let refuses = |has: &[u32], key| {
        let record = Record { own: 1, a: LEFT, b: 200, c: 9, key, second: 100, ..Record::new(Kind::Link) };
        page_refuses(page(LEFT, 1, 0, has), &record)
    };
    assert!(refuses(&[50, 10, 100], 10), "at the entry before");
    assert!(!refuses(&[50, 10, 100], 11), "above it, and below one further left");
    assert!(!refuses(&[50, 10, 100], 50), "at one further left");
    assert!(!refuses(&[10, 100, 20], 20), "at one further right");
    assert!(!refuses(&[50, 10, 100], 99), "below second");
    assert!(refuses(&[50, 10, 100], 100), "at second");
    let falling_to_100: Vec<u32> = (1..=13).rev().chain([100]).collect();
    assert!(refuses(&falling_to_100, 90), "14 entries");
    assert!(!refuses(&falling_to_100[1..], 90), "13 entries");
}

#[test]
fn a_split_is_judged_by_place() {
    let falling: Vec<u32> = (1..=14).rev().collect();
    let refuses = |key, moved: &[u32]| {
        let refused = [0, 1].map(|level| {
            page_refuses(page(LEFT, level, 0, &falling), &Record { level, ..moving(Kind::Split, key, moved) })
        });
        assert_eq!(refused[0], refused[1], "leaf and index alike");
        refused[0]
    };
    assert!(!refuses(8, &falling[7..]), "the key before the moved ones, and above them");
    assert!(refuses(9, &falling[7..]), "the key further left");
    assert!(refuses(8, &[1, 2, 3, 4, 5, 6, 7]), "moved in another order");
    assert!(refuses(8, &falling[..7]), "moved from the beginning");
    assert!(!refuses(1, &[]), "none moved, and the last one's key");
    assert!(refuses(14, &[]), "none moved, and the greatest key");
    assert!((0..=15).all(|key| refuses(key, &falling)), "all moved");
}

/// Whether the page that takes the moved entries refuses them, as a leaf and as an index.
fn takers_refuse(taker: usize, has: &[u32], record: &Record) -> [bool; 2] {
    let right = if taker == LEFT { RIGHT } else { 0 };
    [0, 1].map(|level| page_refuses(page(taker, level, right, has), record))
}

/// The same, where a leaf and an index answer alike.
fn taker_refuses(kind: Kind, taker: usize, has: &[u32], moved: &[u32], key: u32) -> bool {
    let refused = takers_refuse(taker, has, &moving(kind, key, moved));
    assert_eq!(refused[0], refused[1], "leaf and index alike");
    refused[0]
}

#[test]
fn what_moves_into_a_stands_after_its_last_entry() {
    for kind in [Kind::Merge, Kind::Redistribute] {
        assert!(taker_refuses(kind, LEFT, &[10, 20], &[19, 30], 30), "{kind:?} below A's last");
        assert!(taker_refuses(kind, LEFT, &[10, 20], &[20, 30], 30), "{kind:?} at A's last");
        assert!(!taker_refuses(kind, LEFT, &[10, 20], &[21, 30], 30), "{kind:?} above A's last");
        assert!(!taker_refuses(kind, LEFT, &[30, 20], &[25, 22, 40], 40), "{kind:?}: no other entries are asked");
        assert!(!taker_refuses(kind, LEFT, &[], &[7, 30], 30), "{kind:?} into none");
        assert!(!taker_refuses(kind, LEFT, &[10, 20], &[], 20), "{kind:?} of none");
    }
}

#[test]
fn what_moves_into_b_stands_before_its_first_entry() {
    let refuses = |has: &[u32], moved: &[u32]| taker_refuses(Kind::Redistribute, RIGHT, has, moved, 1);
    assert!(refuses(&[20, 30], &[10, 21]), "above B's first");
    assert!(refuses(&[20, 30], &[10, 20]), "at B's first");
    assert!(!refuses(&[20, 30], &[10, 19]), "below B's first");
    assert!(!refuses(&[20, 10], &[25, 15]), "no other entries are asked");
    assert!(!refuses(&[], &[10, 20]), "into none");
    assert!(!refuses(&[20, 30], &[]), "of none");
}

#[test]
fn the_taker_has_room_and_an_index_takes_children() {
    let falling: Vec<u32> = (30..43).rev().collect();
    let (into_a, into_b) = ([50, 51], [10, 11]);
    for (kind, taker, moved, key) in [
        (Kind::Merge, LEFT, into_a, 51),
        (Kind::Redistribute, LEFT, into_a, 51),
        (Kind::Redistribute, RIGHT, into_b, 1),
    ] {
        assert!(taker_refuses(kind, taker, &falling, &moved, key), "{kind:?}: 13 and 2");
        assert!(!taker_refuses(kind, taker, &falling[1..], &moved, key), "{kind:?}: 12 and 2");
        let mut record = moving(kind, key, &moved);
        record.entries[1].value = 1023;
        assert_eq!(takers_refuse(taker, &[40, 30], &record), [false, false], "{kind:?}: a child of ten bits");
        record.entries[1].value = 1024;
        assert_eq!(takers_refuse(taker, &[40, 30], &record), [false, true], "{kind:?}: more than a child's ten bits");
    }
}

#[test]
fn the_page_that_gives_is_judged_by_place() {
    let freed = |has: &[u32], moved: &[u32]| page_refuses(page(RIGHT, 0, 0, has), &moving(Kind::Merge, TOP, moved));
    assert!(!freed(&[30, 10, 20], &[30, 10, 20]));
    assert!(freed(&[30, 10, 20], &[10, 20, 30]), "in another order");
    assert!(freed(&[30, 10, 20], &[30, 10]), "not all");
    assert!(page_refuses(Page::free(RIGHT, 0), &moving(Kind::Merge, TOP, &[])), "none of a free page");
    let gives_b = |has, moved| page_refuses(page(RIGHT, 0, 0, has), &moving(Kind::Redistribute, 30, moved));
    assert!(!gives_b(&[30, 10, 20], &[30, 10]), "B's first");
    assert!(gives_b(&[30, 10, 20], &[10, 30]), "B's first in another order");
    assert!(gives_b(&[30, 10, 20], &[10, 20]), "B's last");
    assert!(!gives_b(&[30, 10, 20], &[30, 10, 20]), "all of B");
    let gives_a = |has, key, moved| page_refuses(page(LEFT, 0, RIGHT, has), &moving(Kind::Redistribute, key, moved));
    assert!(!gives_a(&[30, 5, 20, 10], 5, &[20, 10]), "A's last");
    assert!(gives_a(&[30, 5, 20, 10], 5, &[10, 20]), "A's last in another order");
    assert!(gives_a(&[20, 10, 5], 5, &[20, 10]), "A's first");
    assert!(gives_a(&[30, 5, 20, 10], 4, &[20, 10]), "another key before them");
    assert!(gives_a(&[20, 10], 5, &[20, 10]), "all of A");
}

#[test]
fn the_key_of_a_redistribution_is_the_last_one_of_a_not_the_greatest() {
    let refuses = |has, moved, key| taker_refuses(Kind::Redistribute, LEFT, has, moved, key);
    assert!(refuses(&[10], &[30, 20], 30), "the greatest of those moved into A");
    assert!(refuses(&[10], &[20, 30], 31), "one above them");
    assert!(!refuses(&[10], &[20, 30], 30));
    assert!(refuses(&[30, 10], &[], 30), "none moved: A's greatest");
    assert!(!refuses(&[30, 10], &[], 10), "none moved: A's last");
    assert!(refuses(&[], &[], 0), "none moved, and none there");
}

#[test]
fn a_raise_or_lowering_has_the_entries_in_their_order() {
    let raise = |level, moved: &[u32]| {
        let record = Record { level, a: ROOT, ..moving(Kind::Raise, 1, moved) };
        page_refuses(page(ROOT, level, RIGHT, &[30, 10, 20]), &record)
    };
    assert!(!raise(0, &[30, 10, 20]));
    assert!(raise(0, &[10, 20, 30]), "in another order");
    assert!(!raise(14, &[30, 10, 20]), "level 14");
    assert!(raise(15, &[30, 10, 20]), "level 15");
    let lower = |page, moved: &[u32]| page_refuses(page, &Record { a: ROOT, ..moving(Kind::Lower, 0, moved) });
    assert!(!lower(page(RIGHT, 0, 0, &[30, 10, 20]), &[30, 10, 20]));
    assert!(lower(page(RIGHT, 0, 0, &[30, 10, 20]), &[10, 20, 30]), "in another order");
    let root = |children: &[usize]| {
        let entries = children.iter().map(|child| Entry::to_child(9, *child)).collect();
        Page { entries, ..page(ROOT, 1, 0, &[]) }
    };
    assert!(!lower(root(&[RIGHT]), &[]));
    assert!(lower(root(&[LEFT]), &[]), "another child");
    assert!(lower(root(&[RIGHT, RIGHT]), &[]), "the child twice");
}

#[test]
fn a_merge_of_none_passes_where_a_has_entries() {
    let mut pages = leaf(&[10, 20]);
    (pages.list[ROOT].right, pages.list[ROOT].high) = (RIGHT, 20);
    pages.list[RIGHT] = page(RIGHT, 0, 0, &[]);
    pages.map.take(RIGHT);
    let merge = Record { own: 1, a: ROOT, b: RIGHT, key: TOP, ..Record::new(Kind::Merge) };
    let outcome = restart(&pages, &[merge]);
    assert_eq!(outcome.answer, Ok(Answer::Restarted { ended: 0, changes: 3 }));
}
