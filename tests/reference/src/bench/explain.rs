//! The vectors' input explained: after each call the pages and slots that it changed, field by field.

use super::line::lines_of;
use super::vectors::answer_of;
use super::{Command, Instrument};
use crate::layout::{Areas, Entry, Map, Page, PageKind, Record};
use crate::log::is_empty_slot;
use crate::sizes::{PAGE_BYTES, SLOT_BYTES};
use std::fmt::Write;

/// Explain a whole input. The error is the number of the first line that is no command.
pub fn explain(input: &[u8]) -> Result<String, usize> {
    let mut instrument = Instrument::default();
    let mut output = String::new();
    for (line, number) in lines_of(input).zip(1usize..) {
        let command = Command::read(line).ok_or(number)?;
        let before = instrument.areas.clone();
        let _ = writeln!(output, "> {command}");
        if let Some(event) = instrument.run(&command) {
            let _ = writeln!(output, "{}", answer_of(&event));
            // What a cut leaves in the working areas is no work of the call.
            explain_changes(&before, &instrument.areas, !event.was_cut, &mut output);
        }
    }
    Ok(output)
}

fn explain_changes(before: &Areas, after: &Areas, working: bool, output: &mut String) {
    if working {
        explain_pages("working", &before.working_pages, &after.working_pages, output);
    }
    explain_pages("stable", &before.stable_pages, &after.stable_pages, output);
    if working {
        explain_slots("working", &before.working_log, &after.working_log, output);
    }
    explain_slots("stable", &before.stable_log, &after.stable_log, output);
}

fn explain_pages(area: &str, before: &[u8], after: &[u8], output: &mut String) {
    let pairs = before.chunks_exact(PAGE_BYTES).zip(after.chunks_exact(PAGE_BYTES));
    for (place, (_, page)) in pairs.enumerate().filter(|(_, (before, after))| before != after) {
        let _ = writeln!(output, "  {area} page {place}: {}", page_fields(page));
    }
}

/// Slots that became empty are not listed.
fn explain_slots(area: &str, before: &[u8], after: &[u8], output: &mut String) {
    let pairs = before.chunks_exact(SLOT_BYTES).zip(after.chunks_exact(SLOT_BYTES)).zip(1usize..);
    for ((_, slot), number) in pairs.filter(|((before, after), _)| before != after && !is_empty_slot(after)) {
        let _ = writeln!(output, "  {area} slot {number}: {}", slot_fields(slot));
    }
}

fn page_fields(bytes: &[u8]) -> String {
    let Page { kind, level, right, left, high, log, own, entries } = Page::read(bytes);
    if kind == PageKind::Map {
        let map = Map::read(bytes);
        let used: Vec<String> = (0..Map::BITS).filter(|page| map.is_used(*page)).map(|page| page.to_string()).collect();
        return format!("map log={log} used={}", used.join(","));
    }
    let (kind, count, list) = (kind as u8, entries.len(), entry_list(&entries));
    // Few pages have one, and no stable ones.
    let left = if left == 0 { String::new() } else { format!(" left={left}") };
    format!("kind={kind} level={level} count={count} right={right}{left} high={high} log={log} own={own}{list}")
}

fn slot_fields(bytes: &[u8]) -> String {
    let Some(record) = Record::read(bytes) else {
        return "no record".to_string();
    };
    let Record { kind, level, own, batch, previous, a, b, c, key, second, right, entries } = record;
    let (kind, count, list) = (kind as u8, entries.len(), entry_list(&entries));
    format!(
        "kind={kind} count={count} level={level} own={own} batch={batch} previous={previous} \
         A={a} B={b} C={c} key={key} second={second} right={right}{list}"
    )
}

fn entry_list(entries: &[Entry]) -> String {
    entries.iter().map(|entry| format!(" ({},{})", entry.key, entry.value)).collect()
}
