//! What refusal 5 judges: whether a page is one that a record's row starts from, by that page alone.
//!
//! Judged are kind, level, count, entries, links and the map's bit, never the high key. That the page taken is the
//! highest free one is not judged: the areas may have grown since.

use super::change::{moves_into_a, Role};
use crate::layout::{entry_place, Entry, Kind, Page, PageKind, Pages, Record};
use crate::sizes::{HIGHEST_LEVEL, MOST_ENTRIES};

/// Fine, or what the page should be and is not.
type Judged = Result<(), String>;

fn asks(holds: bool, rule: &str) -> Judged {
    if holds {
        Ok(())
    } else {
        Err(rule.to_string())
    }
}

pub fn starts_from(pages: &Pages, record: &Record, role: Role, number: usize) -> Judged {
    let page = &pages.list[number];
    match role {
        Role::A => starts_from_a(page, record),
        Role::B => starts_from_b(page, record),
        Role::C => asks(page.kind == PageKind::Free, "a raise takes a free page, and it is in use"),
        Role::Map => starts_from_map(pages, record),
    }
}

fn starts_from_map(pages: &Pages, record: &Record) -> Judged {
    match record.kind {
        Kind::Split => asks(!pages.map.is_used(record.b), "the map has the page that the split takes marked as used"),
        Kind::Raise => asks(!pages.map.is_used(record.c), "the map has the page that the raise takes marked as used"),
        _ => asks(pages.map.is_used(record.b), "the map does not have the page that is freed marked as used"),
    }
}

fn starts_from_a(page: &Page, record: &Record) -> Judged {
    match record.kind {
        Kind::Insert | Kind::UndoDelete => adds(page, record),
        Kind::Delete | Kind::UndoInsert => removes(page, record),
        Kind::Split => splits(page, record),
        Kind::Link => links(page, record),
        Kind::Unlink => unlinks(page, record),
        Kind::Merge => merges(page, record),
        Kind::Redistribute => redistributes_a(page, record),
        Kind::Raise => raises(page, record),
        Kind::Lower => lowers(page, record),
        Kind::Begin | Kind::Commit | Kind::AbortMark | Kind::End => unreachable!("changes no page"),
    }
}

fn starts_from_b(page: &Page, record: &Record) -> Judged {
    match record.kind {
        Kind::Split => asks(page.kind == PageKind::Free, "a split takes a free page, and it is in use"),
        Kind::Merge => {
            asks(in_tree(page), "the page that a merge frees is neither a leaf nor an index page")?;
            asks(page.entries == record.entries, "it has other entries than those that the merge moves")?;
            asks(page.right == record.right, "its right link is not the one that the merge gives to A")
        }
        Kind::Lower => {
            is_whole_page(page, record)?;
            asks(page.right == 0, "the root's only child has a right link")
        }
        // A redistribution gives B's first entries, or puts entries before them.
        _ if moves_into_a(record) => {
            asks(in_tree(page), "it is neither a leaf nor an index page")?;
            asks(page.entries.starts_with(&record.entries), "its first entries are not those that the record moves")
        }
        _ => {
            asks(in_tree(page), "it is neither a leaf nor an index page")?;
            takes(page, record)?;
            asks(rise(&record.entries, &page.entries), "its first key is not above the last that the record moves")
        }
    }
}

/// The key stands nowhere, also not where the search would pass it by because the entries are out of order.
fn adds(page: &Page, record: &Record) -> Judged {
    asks(page.is_leaf(), "it is no leaf")?;
    asks(has_room(page, 1), "it is full")?;
    asks(page.entries.iter().all(|entry| entry.key != record.key), "it has the key already")
}

/// The search meets the key. A delete knows the value too, an undo-insert only the key.
fn removes(page: &Page, record: &Record) -> Judged {
    asks(page.is_leaf(), "it is no leaf")?;
    let met = page.entries.get(entry_place(&page.entries, record.key)).filter(|entry| entry.key == record.key);
    asks(met.is_some(), "it does not have the key")?;
    let same = record.kind == Kind::UndoInsert || met.map(|entry| entry.value) == Some(record.second);
    asks(same, "it has the key with another value")
}

fn splits(page: &Page, record: &Record) -> Judged {
    let keeps = MOST_ENTRIES - record.entries.len();
    at_level(page, record.level)?;
    asks(page.is_full(), "a split starts from 14 entries, and it has fewer")?;
    asks(page.entries.ends_with(&record.entries), "its last entries are not those that the split moves")?;
    let key_before = keeps > 0 && page.entries[keeps - 1].key == record.key;
    asks(key_before, "the entry before the moved ones does not have the record's key")?;
    asks(page.right == record.right, "its right link is not the record's")
}

/// A has (second, B), and the new bound lies strictly between the entry before it and it.
fn links(page: &Page, record: &Record) -> Judged {
    asks(page.is_index(), "it is no index page")?;
    asks(has_room(page, 1), "it is full")?;
    let place = entry_place(&page.entries, record.second);
    let there = page.entries.get(place) == Some(&Entry::to_child(record.second, record.b));
    asks(there, "it has no entry with the record's second key for B")?;
    let above_left = place == 0 || page.entries[place - 1].key < record.key;
    asks(above_left && record.key < record.second, "the record's key does not lie between its neighbours")
}

/// A has (key, B) and (second, C) side by side.
fn unlinks(page: &Page, record: &Record) -> Judged {
    asks(page.is_index(), "it is no index page")?;
    let place = entry_place(&page.entries, record.key);
    let both = page.entries.get(place) == Some(&Entry::to_child(record.key, record.b))
        && page.entries.get(place + 1) == Some(&Entry::to_child(record.second, record.c));
    asks(both, "it does not have the entries for B and C side by side")
}

fn merges(page: &Page, record: &Record) -> Judged {
    asks(in_tree(page), "it is neither a leaf nor an index page")?;
    takes(page, record)?;
    asks(page.right == record.b, "its right link is not the page that is freed")?;
    takes_at_its_end(page, record)
}

fn redistributes_a(page: &Page, record: &Record) -> Judged {
    asks(in_tree(page), "it is neither a leaf nor an index page")?;
    asks(page.right == record.b, "its right link is not B")?;
    let last_afterwards = if moves_into_a(record) {
        takes(page, record)?;
        takes_at_its_end(page, record)?;
        record.entries.last().or(page.entries.last())
    } else {
        page.entries.strip_suffix(record.entries.as_slice()).and_then(<[Entry]>::last)
    };
    let key_last = last_afterwards.map(|entry| entry.key) == Some(record.key);
    asks(key_last, "after the move its last key would not be the record's")
}

fn raises(page: &Page, record: &Record) -> Judged {
    is_whole_page(page, record)?;
    asks(page.right == record.b, "its right link is not B")?;
    asks(record.level < HIGHEST_LEVEL, "a root of level 15 cannot be raised")
}

fn lowers(page: &Page, record: &Record) -> Judged {
    asks(page.is_index(), "it is no index page")?;
    asks(page.level == record.level + 1, "its level is not one above the record's")?;
    let only = page.entries.len() == 1 && page.entries[0].child() == record.b;
    asks(only, "B is not its only child")?;
    asks(page.right == 0, "it has a right link")
}

fn in_tree(page: &Page) -> bool {
    page.is_leaf() || page.is_index()
}

fn at_level(page: &Page, level: usize) -> Judged {
    asks(page.kind == PageKind::at_level(level) && page.level == level, "its kind or level is not the record's")
}

/// The page has the record's kind, level and entries, all of them.
fn is_whole_page(page: &Page, record: &Record) -> Judged {
    at_level(page, record.level)?;
    asks(page.entries == record.entries, "its entries are not the record's")
}

fn has_room(page: &Page, more: usize) -> bool {
    page.entries.len() + more <= MOST_ENTRIES
}

/// Room for the moved entries, and in an index nothing above their child's ten bits. Merges and redistributions carry no
/// level, so only the page says whether the entries have children.
fn takes(page: &Page, record: &Record) -> Judged {
    let fit = page.is_leaf() || record.entries.iter().all(Entry::fits_index);
    asks(has_room(page, record.entries.len()), "it has no room for the moved entries")?;
    asks(fit, "it is an index page, and a moved entry has more than a child's ten bits")
}

fn takes_at_its_end(page: &Page, record: &Record) -> Judged {
    asks(rise(&page.entries, &record.entries), "its last key is not below the first that the record moves")
}

/// Whether the keys rise from the left entries to the right ones. Where either are none, there is nothing to ask.
fn rise(left: &[Entry], right: &[Entry]) -> bool {
    left.last().zip(right.first()).is_none_or(|(last, first)| last.key < first.key)
}
