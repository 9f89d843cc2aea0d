//! The stored log: its records by name, one a line.

use crate::image::Image;
use crate::text;
use decode::layout::{Kind, Record};
use decode::log::{is_empty_slot, page_changes, read_slot};
use decode::sizes::SLOT_BYTES;

/// Which records are wanted.
#[derive(Clone, Copy, Debug, PartialEq, Eq)]
pub enum Which {
    All,
    Batch(u32),
    /// Those that change this page.
    Page(usize),
}

/// Every full slot, broken ones too: each is judged by itself.
pub fn log(image: &Image, which: Which) -> Vec<String> {
    let areas = &image.areas;
    let slots = areas.stable_log.chunks_exact(SLOT_BYTES).zip(1..);
    let full = slots.filter(|(bytes, _)| !is_empty_slot(bytes));
    let line = |(bytes, slot): (&[u8], usize)| match read_slot(bytes, slot, areas.page_count()) {
        Ok(record) => wanted(&record, which).then(|| text::record(&record)),
        Err(fault) => (which == Which::All).then(|| format!("{slot} no record: {}", image.said(&fault))),
    };
    full.filter_map(line).collect()
}

fn wanted(record: &Record, which: Which) -> bool {
    match which {
        Which::All => true,
        Which::Batch(batch) => record.kind <= Kind::End && record.batch == batch,
        Which::Page(page) => page_changes(record).into_iter().any(|(_, changed)| changed == page),
    }
}
