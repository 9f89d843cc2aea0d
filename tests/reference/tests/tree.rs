//! Every single change of the tree leaves a tree by the rules, an update stays within 32 records and 7 pages and keeps the
//! left links, and redo of all records from the first makes the same pages again.

use reference::bench::Random;
use reference::calls::write_update;
use reference::layout::{Entry, Kind, Pages, Record};
use reference::left::{left_links_agree, link_leaves};
use reference::log::{redo, Work};
use reference::sizes::{MOST_PAGES, ROOT, UPDATE_PAGES, UPDATE_RECORDS};
use reference::tree::slides_of;
use std::collections::BTreeSet;

/// One batch in a register without bounds on its log.
fn large_register() -> Work {
    let mut work = Work::formatted(MOST_PAGES, 1_000_000);
    work.write(Record::new(Kind::Begin)).expect("room");
    work
}

/// Add or remove a key, and look at the tree after each record that this wrote.
fn update(work: &mut Work, key: u32, kind: Kind) {
    let written = work.log.records.len();
    let mut pages = work.pages.stored();
    write_update(work, 1, kind, Entry::new(key, key ^ 1)).expect("room");
    let new = &work.log.records[written..];
    let taken = new.iter().filter(|record| matches!(record.kind, Kind::Split | Kind::Raise)).count();
    assert!(new.len() <= UPDATE_RECORDS && taken <= UPDATE_PAGES);
    for record in new {
        redo(&mut pages, std::slice::from_ref(record)).expect("each change starts from what its row says");
        assert!(slides_of(&pages).is_ok(), "{:?} leaves a tree by the rules", record.kind);
        check_halves(&pages, record);
    }
    assert!(left_links_agree(&work.pages));
    assert!(pages == work.pages.stored(), "redo of what was written makes the same pages");
}

/// "A split of 14 leaves 7 and 7. Redistribution gives the left page the larger half."
fn check_halves(pages: &Pages, record: &Record) {
    let [left, right] = [record.a, record.b].map(|page| pages.list[page].entries.len());
    match record.kind {
        Kind::Split => assert_eq!((left, right), (7, 7)),
        Kind::Redistribute => assert!(left == right || left == right + 1),
        _ => {}
    }
}

fn check_slides(work: &Work, keys: usize) {
    let slides = slides_of(&work.pages).expect("a tree by the rules");
    assert_eq!(slides.len(), keys);
}

fn check_redo_from_the_start(work: &Work) {
    let mut pages = Pages::formatted(MOST_PAGES);
    redo(&mut pages, &work.log.records).expect("redo of a whole log");
    link_leaves(&mut pages);
    assert!(pages == work.pages);
}

#[test]
fn rising_keys_reach_five_levels_and_go_again() {
    let mut work = large_register();
    let mut count = 0;
    while work.pages.free_count() > UPDATE_PAGES {
        update(&mut work, count * 3, Kind::Insert);
        count += 1;
    }
    assert_eq!(work.page(ROOT).level, 4, "five levels");
    check_slides(&work, count as usize);
    for key in 0..count {
        update(&mut work, key * 3, Kind::Delete);
    }
    check_slides(&work, 0);
    assert!(work.page(ROOT).is_leaf());
    check_redo_from_the_start(&work);
}

/// Windows of keys are filled or emptied, up, down or in any order, so that full pages and nearly empty ones come to
/// stand side by side, at the ends of their parents too.
#[test]
fn windows_of_keys_are_filled_and_emptied() {
    let mut random = Random::new(5);
    let mut work = large_register();
    let mut present = BTreeSet::new();
    for _ in 0..250 {
        let insert = random.below(3000) > present.len();
        let kind = if insert { Kind::Insert } else { Kind::Delete };
        for key in window(&mut random) {
            if present.contains(&key) != insert {
                update(&mut work, key, kind);
                if insert {
                    present.insert(key);
                } else {
                    present.remove(&key);
                }
            }
        }
        check_slides(&work, present.len());
    }
    check_redo_from_the_start(&work);
    check_all_changes_met(&work);
}

fn window(random: &mut Random) -> Vec<u32> {
    let from = random.below(2500);
    let mut keys: Vec<u32> = (from..from + random.within(20, 300)).map(|key| key as u32).collect();
    match random.below(3) {
        0 => keys.reverse(),
        1 => keys.sort_by_cached_key(|_| random.next()),
        _ => {}
    }
    keys
}

/// Each tree change, and redistributions both ways.
fn check_all_changes_met(work: &Work) {
    let count = |wanted: &dyn Fn(&Record) -> bool| work.log.records.iter().filter(|record| wanted(record)).count();
    for kind in Kind::ALL.into_iter().filter(|kind| *kind >= Kind::Split) {
        assert!(count(&|record| record.kind == kind) > 0, "{kind:?} was met");
    }
    let shared = |record: &Record| record.kind == Kind::Redistribute;
    assert!(count(&|record| shared(record) && record.entries[0].key <= record.key) > 20, "to the left");
    assert!(count(&|record| shared(record) && record.entries[0].key > record.key) > 20, "to the right");
}
