//! What 01's table of records says about one record by itself (refusal 4, "a slot breaks its row").
//!
//! Not judged here: the number of entries, their order, and pages that only a redo meets. Those fall to 5 or 6.

use super::{Entry, Kind, Record};
use crate::sizes::ROOT;

pub fn obeys_row(record: &Record) -> Result<(), String> {
    match unnamed_field(record, &only_named_fields(record)) {
        Some(field) => Err(format!("its row, {}, has no {field}, and it is not zero", record.kind.name())),
        None => obeys_values(record),
    }
}

/// The first field in which two records differ.
fn unnamed_field(record: &Record, named: &Record) -> Option<&'static str> {
    let differs = [
        ("level", record.level != named.level),
        ("batch", record.batch != named.batch),
        ("previous", record.previous != named.previous),
        ("page A", record.a != named.a),
        ("page B", record.b != named.b),
        ("page C", record.c != named.c),
        ("key", record.key != named.key),
        ("second", record.second != named.second),
        ("right", record.right != named.right),
        ("entries", record.entries != named.entries),
    ];
    differs.into_iter().find(|(_, differs)| *differs).map(|(field, _)| field)
}

/// The record with every field zeroed that its row does not name. "Fields not named are zero" is then an equality.
fn only_named_fields(record: &Record) -> Record {
    let mut named = Record::new(record.kind);
    named.own = record.own;
    if record.kind <= Kind::End {
        name_batch_fields(record, &mut named);
    } else {
        name_tree_fields(record, &mut named);
    }
    named
}

/// Rows 1 to 8: the records of a batch.
fn name_batch_fields(record: &Record, named: &mut Record) {
    named.batch = record.batch;
    if record.kind != Kind::Begin {
        named.previous = record.previous;
    }
    if matches!(record.kind, Kind::Insert | Kind::Delete | Kind::UndoInsert | Kind::UndoDelete) {
        named.a = record.a;
        named.key = record.key;
    }
    // An undo-insert carries no value: the key alone says what to take away.
    if matches!(record.kind, Kind::Insert | Kind::Delete | Kind::UndoDelete) {
        named.second = record.second;
    }
}

/// Rows 9 to 15: the seven changes of the tree.
fn name_tree_fields(record: &Record, named: &mut Record) {
    let kind = record.kind;
    named.a = record.a;
    named.b = record.b;
    if matches!(kind, Kind::Link | Kind::Unlink | Kind::Raise) {
        named.c = record.c;
    }
    if kind != Kind::Lower {
        named.key = record.key;
    }
    if matches!(kind, Kind::Split | Kind::Link | Kind::Unlink) {
        named.second = record.second;
    }
    if matches!(kind, Kind::Split | Kind::Merge) {
        named.right = record.right;
    }
    if matches!(kind, Kind::Split | Kind::Raise | Kind::Lower) {
        named.level = record.level;
    }
    if !matches!(kind, Kind::Link | Kind::Unlink) {
        named.entries = record.entries.clone();
    }
}

/// What the row says about the values inside one record.
fn obeys_values(record: &Record) -> Result<(), String> {
    let broken = match record.kind {
        Kind::Begin if record.batch != record.own => "a begin has its own number as its batch",
        Kind::Raise | Kind::Lower if record.a != ROOT => "a raise or a lowering has the root, page 1, as A",
        Kind::Split | Kind::Raise | Kind::Lower if !entries_fit_level(record) => {
            "above the leaves an entry has a child of ten bits"
        }
        Kind::Redistribute if !entries_on_one_side(record) => "the moved entries are not all on one side of the key",
        _ => return Ok(()),
    };
    Err(broken.to_string())
}

/// Above the leaves an entry has a child, with nothing above its ten bits.
fn entries_fit_level(record: &Record) -> bool {
    record.level == 0 || record.entries.iter().all(Entry::fits_index)
}

/// "Entries moved: into A if not above key, else into B": all one way.
fn entries_on_one_side(record: &Record) -> bool {
    let into_a = |entry: &Entry| entry.key <= record.key;
    record.entries.iter().all(into_a) || !record.entries.iter().any(into_a)
}
