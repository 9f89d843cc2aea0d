//! Which pages a record changes, and in which part. Each is one pair of the redo count.

use crate::layout::{Kind, Record};
use crate::sizes::MAP;

/// The part that a page plays in a record.
#[derive(Clone, Copy, Debug, PartialEq, Eq)]
pub enum Role {
    A,
    B,
    C,
    Map,
}

/// The pages that a record changes, in the order of the changes: A, then B or C, then the map where a page is taken or
/// freed.
pub fn page_changes(record: &Record) -> Vec<(Role, usize)> {
    let a = (Role::A, record.a);
    let b = (Role::B, record.b);
    let c = (Role::C, record.c);
    let map = (Role::Map, MAP);
    match record.kind {
        Kind::Begin | Kind::Commit | Kind::AbortMark | Kind::End => vec![],
        Kind::Insert | Kind::Delete | Kind::UndoInsert | Kind::UndoDelete => vec![a],
        Kind::Link | Kind::Unlink => vec![a],
        Kind::Redistribute => vec![a, b],
        Kind::Split | Kind::Merge | Kind::Lower => vec![a, b, map],
        Kind::Raise => vec![a, c, map],
    }
}

/// "Entries moved: into A if not above key, else into B." Of no entries either may be said, and nothing moves.
pub fn moves_into_a(record: &Record) -> bool {
    record.entries.iter().all(|entry| entry.key <= record.key)
}
