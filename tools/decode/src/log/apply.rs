//! What a record does to each page that it changes. The descent and redo both use this, so a change is the same whether
//! it is made or made again. Left links are none of its matter: redo has none (`left`).

use super::change::{moves_into_a, Role};
use crate::layout::{entry_place, Entry, Kind, Page, PageKind, Pages, Record};
use crate::sizes::TOP;

/// Carry out the part of `record` that falls to the page `number` in this role, and give that page the record's number.
pub fn apply(pages: &mut Pages, record: &Record, role: Role, number: usize) {
    match role {
        Role::A => change_a(&mut pages.list[number], record),
        Role::B => change_b(&mut pages.list[number], record, number),
        Role::C => pages.list[number] = new_page(record, number, record.b, record.key),
        Role::Map => match record.kind {
            Kind::Split => pages.map.take(record.b),
            Kind::Raise => pages.map.take(record.c),
            _ => pages.map.give_back(record.b),
        },
    }
    pages.list[number].log = record.own;
}

fn change_a(page: &mut Page, record: &Record) {
    match record.kind {
        Kind::Insert | Kind::UndoDelete => {
            let place = entry_place(&page.entries, record.key);
            page.entries.insert(place, Entry::new(record.key, record.second));
        }
        Kind::Delete | Kind::UndoInsert => {
            let place = entry_place(&page.entries, record.key);
            page.entries.remove(place);
        }
        Kind::Split => {
            drop_last(page, record.entries.len());
            page.high = record.key;
            page.right = record.b;
        }
        Kind::Link => {
            let place = entry_place(&page.entries, record.second);
            page.entries[place].key = record.key;
            page.entries.insert(place + 1, Entry::to_child(record.second, record.c));
        }
        Kind::Unlink => {
            let place = entry_place(&page.entries, record.key);
            page.entries[place].key = record.second;
            page.entries.remove(place + 1);
        }
        Kind::Merge => {
            page.entries.extend(&record.entries);
            page.high = record.key;
            page.right = record.right;
        }
        Kind::Redistribute => redistribute_a(page, record),
        Kind::Raise => raise_root(page, record),
        Kind::Lower => lower_root(page, record),
        Kind::Begin | Kind::Commit | Kind::AbortMark | Kind::End => unreachable!("changes no page"),
    }
}

fn change_b(page: &mut Page, record: &Record, number: usize) {
    match record.kind {
        Kind::Split => *page = new_page(record, number, record.right, record.second),
        Kind::Redistribute if moves_into_a(record) => drop(page.entries.drain(..record.entries.len())),
        Kind::Redistribute => drop(page.entries.splice(..0, record.entries.iter().copied())),
        // A merge or a lowering frees B.
        _ => *page = Page::free(number, record.own),
    }
}

/// B's high key and right link stay, and so does A's right link.
fn redistribute_a(page: &mut Page, record: &Record) {
    if moves_into_a(record) {
        page.entries.extend(&record.entries);
    } else {
        drop_last(page, record.entries.len());
    }
    page.high = record.key;
}

/// The root's entries are now C's; the root gets one entry for C and one for its old right sibling.
fn raise_root(page: &mut Page, record: &Record) {
    page.kind = PageKind::Index;
    page.level = record.level + 1;
    page.entries = vec![Entry::to_child(record.key, record.c), Entry::to_child(TOP, record.b)];
    page.right = 0;
    page.high = TOP;
}

/// The record carries no key: the root's high key stays.
fn lower_root(page: &mut Page, record: &Record) {
    page.kind = PageKind::at_level(record.level);
    page.level = record.level;
    page.entries = record.entries.clone();
}

fn new_page(record: &Record, own: usize, right: usize, high: u32) -> Page {
    Page {
        kind: PageKind::at_level(record.level),
        level: record.level,
        right,
        left: 0,
        high,
        log: record.own,
        own,
        entries: record.entries.clone(),
    }
}

fn drop_last(page: &mut Page, count: usize) {
    page.entries.truncate(page.entries.len() - count);
}
