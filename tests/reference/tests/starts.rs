//! What refusal 5 judges, kind by kind and page by page: real changes are redone on pages that differ in one respect.

use reference::bench::Random;
use reference::calls::write_update;
use reference::layout::{Entry, Kind, Page, PageKind, Pages, Record};
use reference::log::{page_changes, redo, Role, Work};
use reference::Refusal;
use std::collections::BTreeSet;

/// One respect in which a page may differ from what a change starts from.
#[derive(Clone, Copy, Debug, PartialEq, Eq)]
enum Respect {
    Kind,
    Level,
    LastEntry,
    RightLink,
    HighKey,
    MapBit,
}

const RESPECTS: [Respect; 6] =
    [Respect::Kind, Respect::Level, Respect::LastEntry, Respect::RightLink, Respect::HighKey, Respect::MapBit];

/// Whether the change of this kind asks for this respect of the page in this role.
fn is_judged(kind: Kind, role: Role, respect: Respect) -> bool {
    let takes_new_page = matches!((kind, role), (Kind::Split, Role::B) | (Kind::Raise, Role::C));
    match respect {
        Respect::Kind => role != Role::Map,
        Respect::HighKey => false,
        Respect::MapBit => role == Role::Map,
        _ if takes_new_page || role == Role::Map => false,
        Respect::Level => matches!(kind, Kind::Split | Kind::Raise | Kind::Lower),
        Respect::LastEntry => {
            matches!((kind, role), (Kind::Split | Kind::Raise, Role::A) | (Kind::Merge | Kind::Lower, Role::B))
        }
        Respect::RightLink => {
            let of_a = matches!(kind, Kind::Split | Kind::Merge | Kind::Redistribute | Kind::Raise | Kind::Lower);
            let of_b = matches!(kind, Kind::Merge | Kind::Lower);
            if role == Role::A {
                of_a
            } else {
                of_b
            }
        }
    }
}

/// Change the page in this respect. False where it has none of that kind to change.
fn change(pages: &mut Pages, record: &Record, role: Role, number: usize, respect: Respect) -> bool {
    let page: &mut Page = &mut pages.list[number];
    match respect {
        Respect::Kind if role == Role::Map => return false,
        Respect::Kind => page.kind = if page.kind == PageKind::Free { PageKind::Leaf } else { PageKind::Free },
        Respect::Level if page.is_index() => page.level += 1,
        Respect::Level => return false,
        Respect::LastEntry => match page.entries.last_mut() {
            // Above all others still, so that only who looks at this entry sees it. Records name no such value.
            Some(last) if role != Role::Map && !names_last(record, last) => last.value ^= 1 << 9,
            _ => return false,
        },
        Respect::RightLink => page.right ^= 1,
        Respect::HighKey => page.high ^= 1,
        Respect::MapBit if role != Role::Map => return false,
        Respect::MapBit => {
            let page = if record.kind == Kind::Raise { record.c } else { record.b };
            if pages.map.is_used(page) {
                pages.map.give_back(page);
            } else {
                pages.map.take(page);
            }
        }
    }
    true
}

/// Whether an update, link or unlink is about this very entry.
fn names_last(record: &Record, last: &Entry) -> bool {
    let about = [record.key, record.second];
    let moved = record.kind == Kind::Redistribute && record.entries.last().is_some_and(|moved| moved.key > record.key);
    let only = record.kind == Kind::Lower;
    (record.kind < Kind::Split || matches!(record.kind, Kind::Link | Kind::Unlink)) && about.contains(&last.key)
        || moved
        || only
}

/// Redo one record on pages that differ in one respect of one page; answers whether that was refused.
fn is_refused(before: &Pages, record: &Record, role: Role, number: usize, respect: Respect) -> Option<bool> {
    let mut pages = before.clone();
    // Only this page is to be changed again, as if the others had been stored with the change.
    for (_, other) in page_changes(record).into_iter().filter(|(_, other)| *other != number) {
        pages.list[other].log = record.own;
    }
    if !change(&mut pages, record, role, number, respect) {
        return None;
    }
    match redo(&mut pages, std::slice::from_ref(record)) {
        Ok(_) => Some(false),
        Err(fault) => {
            assert_eq!(fault.refusal, Refusal::Redo);
            Some(true)
        }
    }
}

fn update(work: &mut Work, key: u32, kind: Kind) {
    write_update(work, 1, kind, Entry::new(key, 7)).expect("room");
}

/// The log of a register that grew and shrank through every change of the tree.
fn records() -> Vec<Record> {
    let mut random = Random::new(3);
    let mut work = Work::formatted(400, 100_000);
    work.write(Record::new(Kind::Begin)).expect("room");
    let mut present = BTreeSet::new();
    for round in 0..60 {
        let from = random.below(900) as u32;
        for key in from..from + 150 {
            if round % 2 == 0 && present.insert(key) {
                update(&mut work, key, Kind::Insert);
            } else if round % 2 == 1 && present.remove(&key) {
                update(&mut work, key, Kind::Delete);
            }
        }
    }
    present.iter().for_each(|key| update(&mut work, *key, Kind::Delete));
    work.log.records
}

#[test]
fn redo_asks_of_each_page_what_its_row_starts_from_and_nothing_else() {
    let mut pages = Pages::formatted(400);
    let mut tried = BTreeSet::new();
    for record in records() {
        for (role, number) in page_changes(&record) {
            for respect in RESPECTS {
                if let Some(refused) = is_refused(&pages, &record, role, number, respect) {
                    let judged = is_judged(record.kind, role, respect);
                    assert_eq!(refused, judged, "{:?} on {role:?}: {respect:?}", record.kind);
                    tried.insert(format!("{:?} {role:?} {respect:?}", record.kind));
                }
            }
        }
        redo(&mut pages, &[record]).expect("the record as it was written");
    }
    assert!(tried.len() >= 65, "{} pairs tried: {tried:?}", tried.len());
}

#[test]
fn a_redistribution_puts_nothing_above_a_childs_ten_bits_into_an_index() {
    let index = |own: usize, right: usize, keys: std::ops::Range<u32>, high: u32| Page {
        kind: PageKind::Index,
        level: 1,
        right,
        left: 0,
        high,
        log: 0,
        own,
        entries: keys.map(|key| Entry::to_child(key, 9)).collect(),
    };
    let mut pages = Pages::formatted(16);
    pages.list[4] = index(4, 5, 1..5, 4);
    pages.list[5] = index(5, 0, 5..16, 15);
    let mut record = Record { own: 1, a: 4, b: 5, key: 6, ..Record::new(Kind::Redistribute) };
    record.entries = vec![Entry::to_child(5, 9), Entry::to_child(6, 9)];
    assert_eq!(redo(&mut pages.clone(), std::slice::from_ref(&record)), Ok(2));
    // As if B had been stored with the change, so that only A is looked at.
    pages.list[5].log = 1;
    record.entries[1].value |= 1 << 10;
    assert_eq!(redo(&mut pages, &[record]).map_err(|fault| fault.refusal), Err(Refusal::Redo));
}
