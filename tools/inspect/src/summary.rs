//! What an image holds, in a few lines.

use crate::image::{Image, Shape};
use crate::text::plural;
use crate::why::why_image;
use decode::log::{Log, OpenBatches, Work};
use decode::sizes::{BATCH_RECORDS, UPDATE_PAGES, UPDATE_RECORDS};
use reference::calls::try_restart;

pub fn summary(image: &Image) -> Vec<String> {
    let areas = &image.areas;
    let shape = match image.shape {
        Shape::Raw => "raw areas",
        Shape::Host => "a file of the example host",
    };
    let mut lines = vec![format!("image: {shape}, {} pages, {} slots", areas.page_count(), areas.slot_count())];
    lines.extend(image.lost.iter().map(|lost| format!("damaged: neither copy of {lost} is whole")));
    let stale = image.stale_copies.iter();
    lines.extend(stale.map(|(place, copy)| format!("to be repaired by the host: copy {copy} of {place}")));
    lines.extend(stored(image));
    lines.push(why_image(image).1);
    if let Ok(restarted) = try_restart(areas) {
        lines.extend(room(&restarted.work));
    }
    lines
}

/// The stored log, as far as it can be read.
fn stored(image: &Image) -> Vec<String> {
    let (records, fault) = Log::first_part(&image.areas.stable_log, image.areas.page_count());
    let count = plural(records.len(), "record", "records");
    let mut lines = match fault {
        None => vec![format!("log: {count}")],
        Some(fault) => vec![format!("log: {count}, then {}", image.said(&fault))],
    };
    if let Ok(open) = OpenBatches::after(&records) {
        lines.extend(open.list.iter().map(|batch| {
            format!("open: batch {}, last record {}, {} pending", batch.number, batch.last, batch.pending.len())
        }));
    }
    lines
}

/// What the register has left once it is restarted: no batch is open then.
fn room(work: &Work) -> Vec<String> {
    let (used, slots) = (work.log.records.len(), work.log.slots);
    let (free, pages) = (work.pages.free_count(), work.pages.count());
    let for_updates = (slots - used).saturating_sub(1 + BATCH_RECORDS);
    let sure = (for_updates / (2 * UPDATE_RECORDS)).min(free / (2 * UPDATE_PAGES));
    vec![
        format!("after it: {used} of {slots} slots used, {} left; {free} of {pages} pages free", slots - used),
        format!("one new batch surely takes {}", plural(sure, "insert", "inserts")),
    ]
}
