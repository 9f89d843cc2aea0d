//! 01's table of records, row by row: the fields that a kind names may hold anything, the others are zero.

use reference::layout::{obeys_row, Entry, Kind, Record};
use reference::sizes::ROOT;

/// The fields that a row may name besides kind and own number.
const FIELDS: [&str; 10] = ["level", "batch", "previous", "A", "B", "C", "key", "second", "right", "entries"];

fn named(kind: Kind) -> &'static [&'static str] {
    match kind {
        Kind::Begin => &["batch"],
        Kind::Insert | Kind::Delete | Kind::UndoDelete => &["batch", "previous", "A", "key", "second"],
        Kind::UndoInsert => &["batch", "previous", "A", "key"],
        Kind::Commit | Kind::AbortMark | Kind::End => &["batch", "previous"],
        Kind::Split => &["A", "B", "level", "key", "second", "right", "entries"],
        Kind::Link | Kind::Unlink => &["A", "B", "C", "key", "second"],
        Kind::Merge => &["A", "B", "key", "right", "entries"],
        Kind::Redistribute => &["A", "B", "key", "entries"],
        Kind::Raise => &["A", "B", "C", "level", "key", "entries"],
        Kind::Lower => &["A", "B", "level", "entries"],
    }
}

fn set(record: &mut Record, field: &str) {
    match field {
        "level" => record.level = 3,
        "batch" => record.batch = record.own,
        "previous" => record.previous = 8,
        "A" => record.a = ROOT,
        "B" => record.b = 12,
        "C" => record.c = 13,
        "key" => record.key = 500,
        "second" => record.second = 600,
        "right" => record.right = 14,
        _ => record.entries = vec![Entry::new(510, 15), Entry::new(520, 16)],
    }
}

/// A record of this kind with every named field set.
fn full(kind: Kind) -> Record {
    let mut record = Record { own: 9, ..Record::new(kind) };
    named(kind).iter().for_each(|field| set(&mut record, field));
    record
}

#[test]
fn a_row_takes_the_fields_that_it_names_and_no_others() {
    for kind in Kind::ALL {
        let record = full(kind);
        assert!(obeys_row(&record).is_ok(), "{record:?}");
        for field in FIELDS.into_iter().filter(|field| !named(kind).contains(field)) {
            let mut more = record.clone();
            set(&mut more, field);
            assert!(obeys_row(&more).is_err(), "{kind:?} does not name {field}");
        }
    }
}

#[test]
fn a_begins_batch_is_its_own_number() {
    assert!(obeys_row(&Record { batch: 8, ..full(Kind::Begin) }).is_err());
}

#[test]
fn a_raise_or_lower_is_of_the_root() {
    for kind in [Kind::Raise, Kind::Lower] {
        assert!(obeys_row(&Record { a: 2, ..full(kind) }).is_err());
    }
}

#[test]
fn a_redistribution_moves_one_way() {
    let moves = |keys: &[u32]| {
        let entries = keys.iter().map(|key| Entry::new(*key, 1)).collect();
        obeys_row(&Record { entries, ..full(Kind::Redistribute) }).is_ok()
    };
    assert!(moves(&[501, 502]) && moves(&[499, 500]) && moves(&[]));
    assert!(!moves(&[500, 501]) && !moves(&[501, 500]));
}

#[test]
fn above_the_leaves_nothing_stands_above_a_childs_ten_bits() {
    let wide = vec![Entry::new(510, 1 << 10)];
    for kind in [Kind::Split, Kind::Raise, Kind::Lower] {
        assert!(obeys_row(&Record { entries: wide.clone(), ..full(kind) }).is_err());
        assert!(obeys_row(&Record { level: 0, entries: wide.clone(), ..full(kind) }).is_ok());
    }
    // These carry no level: the page decides, where the change is redone.
    for kind in [Kind::Merge, Kind::Redistribute] {
        assert!(obeys_row(&Record { entries: wide.clone(), ..full(kind) }).is_ok());
    }
}
