//! What a register held before the first record of its log, and whether the stored pages bear that out. A stored page with
//! log number n is what redo of records 1 to n makes of the page at the start. Where it is not, the register started from
//! other slides, or something is damaged.

use crate::text::plural;
use decode::layout::{Areas, Entry, Kind, Page, Pages, Record};
use decode::log::{read_slot, redo};
use decode::sizes::{PAGE_BYTES, SLOT_BYTES};
use reference::tree::pages_for;
use std::collections::BTreeSet;

/// The slides that were imported, or none, and their pages.
pub struct Start<'a> {
    pub slides: &'a [Entry],
    pub pages: Pages,
}

impl<'a> Start<'a> {
    pub fn from(slides: &'a [Entry], page_count: usize) -> Result<Start<'a>, String> {
        let pages = pages_for(slides, page_count).ok_or_else(|| {
            let slides = plural(slides.len(), "slide does", "slides do");
            format!("{slides} not fit {page_count} pages: these are not the columns of this register")
        })?;
        Ok(Start { slides, pages })
    }

    pub fn name(&self) -> &'static str {
        if self.slides.is_empty() {
            "an empty register"
        } else {
            "these columns"
        }
    }
}

/// A stored page or a record that can be read, beside what the start and the log say of it.
struct Beside {
    /// None for a record.
    page: Option<usize>,
    log: u32,
    /// Whether the page is what redo gives. None where the records that are kept do not reach so far.
    agrees: Option<bool>,
    /// The slides in it that the start does not have and no record files.
    untold: Vec<Entry>,
    /// How many of the records up to this log number cannot be read. Each may have filed a slide.
    unread: usize,
}

pub struct Evidence {
    /// By rising log number.
    found: Vec<Beside>,
    /// The pages that the start uses.
    used: Vec<usize>,
}

impl Evidence {
    /// What is stored beside a start from which these records can be redone.
    pub fn of(areas: &Areas, start: &Start, records: &[Record]) -> Evidence {
        let read = readable_records(areas);
        let told = Told::by(start, &read);
        let (mut redone, mut reached) = (start.pages.clone(), 0);
        let mut found: Vec<Beside> =
            read.iter().map(|record| told.beside(None, record.own, slides_in(record))).collect();
        for (page, stored, bytes) in readable_pages(areas) {
            let slides = if stored.is_leaf() { &stored.entries[..] } else { &[] };
            let mut beside = told.beside(Some(page), stored.log, slides.to_vec());
            beside.agrees = records.get(reached..stored.log as usize).map(|next| {
                reached = stored.log as usize;
                redo(&mut redone, next).is_ok() && redone.page_bytes(page) == bytes
            });
            found.push(beside);
        }
        found.sort_by_key(|beside| beside.log);
        let used = (0..start.pages.count()).filter(|page| start.pages.map.is_used(*page)).collect();
        Evidence { found, used }
    }

    /// Whether every page that the start uses is stored as redo gives it. Then there were no other slides: the map says
    /// that no other page was used, and what records did to a page can be reckoned back.
    pub fn is_for_start(&self) -> bool {
        let agree = |page| self.found.iter().any(|beside| beside.page == Some(page) && beside.agrees == Some(true));
        self.used.iter().all(|page| agree(*page))
    }

    /// Whether a page is not what redo gives, or there are more slides that nothing tells of than could have been filed by
    /// the records that cannot be read.
    pub fn is_against_start(&self) -> bool {
        let mut untold = BTreeSet::new();
        self.found.iter().any(|beside| {
            untold.extend(beside.untold.iter().map(pair));
            beside.agrees == Some(false) || untold.len() > beside.unread
        })
    }

    /// A line for each page of which there is something to say, and for each record with a slide that no line has yet.
    pub fn lines(&self, start: &Start) -> Vec<String> {
        let mut pages: Vec<&Beside> = self.found.iter().filter(|beside| beside.page.is_some()).collect();
        pages.sort_by_key(|beside| beside.page);
        let records = self.found.iter().filter(|beside| beside.page.is_none());
        let mut named: BTreeSet<(u32, u32)> = BTreeSet::new();
        let mut lines = Vec::new();
        for beside in pages.into_iter().chain(records) {
            let is_new = |slide: &&Entry| named.insert(pair(slide)) || beside.page.is_some();
            let slides: Vec<&Entry> = beside.untold.iter().filter(is_new).collect();
            lines.extend(line(beside, &slides, start));
        }
        lines
    }
}

fn pair(slide: &Entry) -> (u32, u32) {
    (slide.key, slide.value)
}

/// The stored pages that keep the layout, with their places and bytes, by rising log number.
fn readable_pages(areas: &Areas) -> Vec<(usize, Page, &[u8])> {
    let stored = Pages::shown(&areas.stable_pages);
    let with_bytes = areas.stable_pages.chunks_exact(PAGE_BYTES).enumerate();
    let readable = with_bytes.filter(|(page, bytes)| stored.judge_page(*page, bytes).is_ok());
    let mut pages: Vec<_> = readable.map(|(page, bytes)| (page, stored.list[page].clone(), bytes)).collect();
    pages.sort_by_key(|(_, stored, _)| stored.log);
    pages
}

fn readable_records(areas: &Areas) -> Vec<Record> {
    let slots = areas.stable_log.chunks_exact(SLOT_BYTES).zip(1..);
    slots.filter_map(|(bytes, slot)| read_slot(bytes, slot, areas.page_count()).ok()).collect()
}

/// The slides that a record met. Merges and redistributions do not say whether they move slides or children.
fn slides_in(record: &Record) -> Vec<Entry> {
    match record.kind {
        Kind::Delete | Kind::UndoDelete => vec![Entry::new(record.key, record.second)],
        Kind::Split | Kind::Raise | Kind::Lower if record.level == 0 => record.entries.clone(),
        _ => Vec::new(),
    }
}

fn line(beside: &Beside, slides: &[&Entry], start: &Start) -> Option<String> {
    let mut said = Vec::new();
    if beside.agrees == Some(false) {
        said.push(format!("not what {} and the log give", start.name()));
    }
    if !slides.is_empty() {
        let slides: Vec<String> = slides.iter().map(|slide| format!("({},{})", slide.key, slide.value)).collect();
        let columns = if start.slides.is_empty() { "" } else { ", and not in the columns" };
        said.push(format!("filed by no record that can be read{columns}: {}", slides.join(" ")));
    }
    let place =
        beside.page.map_or(format!("record {}", beside.log), |page| format!("page {page}, log number {}", beside.log));
    (!said.is_empty()).then(|| format!("{place}: {}", said.join("; ")))
}

/// What the start and the records that can be read tell of.
struct Told {
    slides: BTreeSet<(u32, u32)>,
    /// The numbers of the records that can be read, rising.
    read: Vec<u32>,
}

impl Told {
    fn by(start: &Start, records: &[Record]) -> Told {
        let inserts = records.iter().filter(|record| record.kind == Kind::Insert);
        let filed = inserts.map(|record| (record.key, record.second));
        let slides = start.slides.iter().map(pair).chain(filed).collect();
        Told { slides, read: records.iter().map(|record| record.own).collect() }
    }

    /// What there is to say of these slides, which were there after the record of this number.
    fn beside(&self, page: Option<usize>, log: u32, mut slides: Vec<Entry>) -> Beside {
        slides.retain(|slide| !self.slides.contains(&pair(slide)));
        let unread = log as usize - self.read.partition_point(|read| *read <= log);
        Beside { page, log, agrees: None, untold: slides, unread }
    }
}
