//! Two images beside each other: the pages and slots that differ, a line for each side.

use crate::text;
use decode::layout::Areas;
use decode::log::{is_empty_slot, read_slot};
use decode::sizes::{PAGE_BYTES, SLOT_BYTES};

pub fn diff(one: &Areas, other: &Areas) -> Vec<String> {
    let mut lines = Vec::new();
    lines.extend(sizes("pages", one.page_count(), other.page_count()));
    lines.extend(sizes("slots", one.slot_count(), other.slot_count()));
    for page in 0..one.page_count().max(other.page_count()) {
        let (before, after) = (part(&one.stable_pages, PAGE_BYTES, page), part(&other.stable_pages, PAGE_BYTES, page));
        lines.extend(both(&format!("page {page}"), before, after, text::page));
    }
    let count = one.page_count().max(other.page_count());
    for slot in 1..=one.slot_count().max(other.slot_count()) {
        let (before, after) =
            (part(&one.stable_log, SLOT_BYTES, slot - 1), part(&other.stable_log, SLOT_BYTES, slot - 1));
        lines.extend(both(&format!("slot {slot}"), before, after, |bytes| slot_text(bytes, slot, count)));
    }
    lines
}

fn sizes(what: &str, one: usize, other: usize) -> Option<String> {
    (one != other).then(|| format!("{what}: {one} and {other}"))
}

/// A place's two sides. Where only bits without a meaning differ, the first byte that does.
fn both(place: &str, one: Option<&[u8]>, other: Option<&[u8]>, text: impl Fn(&[u8]) -> String) -> Vec<String> {
    if one == other {
        return Vec::new();
    }
    let said = |side: Option<&[u8]>| side.map_or("not lent".to_string(), &text);
    let (before, after) = (said(one), said(other));
    let byte = match (one, other) {
        (Some(one), Some(other)) if before == after => one.iter().zip(other).position(|(one, other)| one != other),
        _ => None,
    };
    let at = byte.map_or(String::new(), |byte| format!(" (byte {byte} differs)"));
    vec![format!("- {place}: {before}{at}"), format!("+ {place}: {after}{at}")]
}

fn part(area: &[u8], size: usize, place: usize) -> Option<&[u8]> {
    area.chunks_exact(size).nth(place)
}

fn slot_text(bytes: &[u8], slot: usize, page_count: usize) -> String {
    if is_empty_slot(bytes) {
        return "empty".to_string();
    }
    match read_slot(bytes, slot, page_count) {
        Ok(record) => text::record(&record),
        Err(fault) => format!("no record: {fault}"),
    }
}
