//! What can be brought back from a damaged image: the pages that the register started from, and the log up to the damage.
//! The log is never written over, so from these pages on it says everything; the stored pages only save redoing it. Slides
//! that were imported are in no record: where the stored pages show some, their columns are needed.

use crate::image::Image;
use crate::start::{Evidence, Start};
use crate::text::plural;
use crate::why::why_image;
use decode::layout::{Areas, Entry, Kind, Pages, Record};
use decode::log::{is_empty_slot, obeys_pending_rule, read_slot, redo, Log, OpenBatches};
use decode::rules::slides_of;
use decode::sizes::SLOT_BYTES;
use decode::{Fault, Refusal};

pub struct Salvaged {
    /// None where it is in doubt what the register started from, and that was not given.
    pub image: Option<Image>,
    /// What was kept and what is lost, and what a restart of the new image answers; and what is in doubt.
    pub lines: Vec<String>,
    /// Whether no stored page that can be read speaks against what is brought back.
    pub is_well: bool,
}

/// From the columns that were imported, if they are given; no slides for a register that started empty.
pub fn salvage(image: &Image, columns: Option<&[Entry]>) -> Result<Salvaged, String> {
    let areas = &image.areas;
    if !areas.lengths_are_right() {
        return Err("restart answers 1: the areas' lengths are wrong".to_string());
    }
    let start = Start::from(columns.unwrap_or_default(), areas.page_count())?;
    let (records, fault) = sure_part(areas, &start.pages);
    let evidence = Evidence::of(areas, &start, &records);
    // Records that do not fit the start are damaged, or it is not theirs.
    let misfit = fault.as_ref().filter(|fault| matches!(fault.refusal, Refusal::Redo | Refusal::Tree));
    let is_in_doubt = !evidence.is_for_start() && (evidence.is_against_start() || misfit.is_some());
    if is_in_doubt && columns.is_none() {
        return Ok(Salvaged { image: None, lines: doubts(&start, &evidence, misfit), is_well: false });
    }
    let log = Log { records, slots: areas.slot_count() };
    let saved = Image { shape: image.shape, ..Image::raw(start.pages.bytes(), log.bytes()) };
    let against = evidence.lines(&start);
    let is_well = against.is_empty() && !is_in_doubt;
    let mut lines = Vec::new();
    lines.extend(columns.map(|columns| format!("started from: {}", plural(columns.len(), "slide", "slides"))));
    lines.extend(kept_and_lost(image, &log.records, fault));
    lines.extend(against);
    lines.extend(is_in_doubt.then(|| in_doubt(&format!("the register did not start from {}", start.name()))));
    lines.push(format!("of what is brought back: {}", why_image(&saved).1));
    Ok(Salvaged { image: Some(saved), lines, is_well })
}

/// Why nothing is written.
fn doubts(start: &Start, evidence: &Evidence, misfit: Option<&Fault>) -> Vec<String> {
    let mut lines = evidence.lines(start);
    lines.extend(misfit.map(|fault| format!("the log does not fit {}: {fault}", start.name())));
    lines.push(in_doubt("slides were there before the log began"));
    let asked = "nothing is written: give the columns that were imported, or an empty file if there were none";
    lines.push(asked.to_string());
    lines
}

fn in_doubt(what: &str) -> String {
    format!("in doubt: {what}, or what is named here is damaged")
}

/// The log up to the damage, and what was said after it.
fn kept_and_lost(image: &Image, records: &[Record], fault: Option<Fault>) -> Vec<String> {
    let mut lines = vec![kept(records.len())];
    lines.push(match fault {
        Some(fault) => format!("damage in the log: {}", image.said(&fault)),
        None => "damage in the log: none; the pages are made anew".to_string(),
    });
    lines.extend(missing(&image.areas, records.len()));
    lines.extend(lost_cases(&image.areas, records));
    lines
}

fn kept(records: usize) -> String {
    match records {
        0 => "kept: no record".to_string(),
        1 => "kept: record 1".to_string(),
        _ => format!("kept: records 1 to {records}"),
    }
}

/// The longest first part of the log that can be trusted, and what is wrong after it.
fn sure_part(areas: &Areas, start: &Pages) -> (Vec<Record>, Option<Fault>) {
    let (mut records, mut fault) = Log::first_part(&areas.stable_log, areas.page_count());
    let mut cut = |records: &mut Vec<Record>, found: Option<(usize, Fault)>| {
        if let Some((count, found)) = found {
            records.truncate(count);
            fault = Some(found);
        }
    };
    let chain = chain_break(&records);
    cut(&mut records, chain);
    let redone = first_not_redone(&records, start, false);
    cut(&mut records, redone);
    // The rules hold after every record of a log that the register wrote. So they are asked once, and the record after
    // which they break is looked for only where they do.
    if judge_whole(&records, start).is_err() {
        let rule = first_not_redone(&records, start, true);
        cut(&mut records, rule);
    }
    (records, fault)
}

/// How many records keep the batch chain, where not all do.
fn chain_break(records: &[Record]) -> Option<(usize, Fault)> {
    let fault = OpenBatches::after(records).err()?;
    let mut open = OpenBatches::default();
    let count = records.iter().take_while(|record| open.follow(record).is_ok()).count();
    Some((count, fault))
}

fn judge_whole(records: &[Record], start: &Pages) -> Result<(), Fault> {
    let mut pages = start.clone();
    redo(&mut pages, records)?;
    obeys_pending_rule(&OpenBatches::after(records)?, &slides_of(&pages)?)
}

/// How many records can be redone from the start, where not all can; and, if asked, with the rules after each.
fn first_not_redone(records: &[Record], start: &Pages, with_rules: bool) -> Option<(usize, Fault)> {
    let mut pages = start.clone();
    let mut open = OpenBatches::default();
    for (count, record) in records.iter().enumerate() {
        let _ = open.follow(record);
        let mut redone = redo(&mut pages, std::slice::from_ref(record)).map(drop);
        if with_rules {
            redone = redone.and_then(|()| slides_of(&pages)).and_then(|slides| obeys_pending_rule(&open, &slides));
        }
        if let Err(fault) = redone {
            return Some((count, fault));
        }
    }
    None
}

/// Records of which only the pages still tell.
fn missing(areas: &Areas, kept: usize) -> Option<String> {
    let full = areas.stable_log.chunks_exact(SLOT_BYTES).zip(1..).filter(|(bytes, _)| !is_empty_slot(bytes));
    let last_full = full.map(|(_, slot)| slot).max().unwrap_or(0);
    let pages = Pages::read(&areas.stable_pages).ok()?;
    let newest = pages.list.iter().map(|page| page.log as usize).max().unwrap_or(0);
    (newest > last_full.max(kept)).then(|| {
        format!("pages were changed by records up to {newest}, and the log ends at {last_full}: what the others said is lost")
    })
}

/// The cases whose commit stands after the damage, with their updates; and slots there that cannot be read.
fn lost_cases(areas: &Areas, kept: &[Record]) -> Vec<String> {
    let mut after = Vec::new();
    let mut lines = Vec::new();
    for (bytes, slot) in areas.stable_log.chunks_exact(SLOT_BYTES).zip(1..).skip(kept.len()) {
        match read_slot(bytes, slot, areas.page_count()) {
            _ if is_empty_slot(bytes) => {}
            Ok(record) => after.push(record),
            Err(_) => {
                lines.push(format!("lost: slot {slot} cannot be read; if a case was committed there, it is lost too"))
            }
        }
    }
    let commits = after.iter().filter(|record| record.kind == Kind::Commit);
    lines.extend(commits.map(|commit| lost_case(commit, kept, &after)));
    if lines.is_empty() {
        lines.push("lost: no case".to_string());
    }
    lines
}

/// The updates of a case that it has not taken back. An undo names the newest one that is left, so that an update that
/// cannot be read does no harm.
fn kept_updates<'a>(of_batch: impl Iterator<Item = &'a Record>) -> Vec<&'a Record> {
    let mut updates: Vec<&Record> = Vec::new();
    for record in of_batch {
        match record.kind {
            Kind::Insert | Kind::Delete => updates.push(record),
            Kind::UndoInsert | Kind::UndoDelete => updates.retain(|update| update.own <= record.previous),
            _ => {}
        }
    }
    updates
}

fn lost_case(commit: &Record, kept: &[Record], after: &[Record]) -> String {
    let of_batch = kept.iter().chain(after).filter(|record| record.batch == commit.batch);
    let updates: Vec<String> = kept_updates(of_batch)
        .iter()
        .map(|update| match update.kind {
            Kind::Insert => format!("insert {} {}", update.key, update.second),
            _ => format!("delete {}", update.key),
        })
        .collect();
    let updates = if updates.is_empty() { "no update that can be read".to_string() } else { updates.join(", ") };
    format!("lost: batch {}, committed by record {}: {updates}", commit.batch, commit.own)
}
