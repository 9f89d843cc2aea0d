//! Load and format: both build a register anew and write it whole, "storing pages, then slots, in order". A format is the
//! loading of no records.

use super::batch::ask_lengths;
use super::update::UNREAD;
use super::{Answer, Outcome};
use crate::layout::{Areas, Desk, Entry, Pages, Store};
use crate::left::link_leaves;
use crate::log::Work;
use crate::sizes::SLOT_BYTES;
use crate::tree::pages_for;
use crate::Refusal;

/// The two columns of an older instrument. They are kept for as long as the program runs, so that a call stays a small
/// value that is copied, with columns or without.
#[derive(Clone, Copy, Debug, PartialEq, Eq)]
pub struct Columns {
    pub keys: &'static [u32],
    pub values: &'static [u32],
}

impl Columns {
    pub const NONE: Columns = Columns { keys: &[], values: &[] };

    pub fn new(keys: Vec<u32>, values: Vec<u32>) -> Columns {
        Columns { keys: keys.leak(), values: values.leak() }
    }

    pub fn of_records(records: impl IntoIterator<Item = (u32, u32)>) -> Columns {
        let (keys, values) = records.into_iter().unzip();
        Columns::new(keys, values)
    }

    /// Key and value side by side, as far as both columns go.
    pub fn records(self) -> impl Iterator<Item = Entry> {
        self.keys.iter().zip(self.values).map(|(key, value)| Entry::new(*key, *value))
    }
}

pub fn load(areas: &Areas, columns: Columns) -> Outcome {
    match try_load(areas, columns) {
        Ok(pages) => written(areas, pages),
        // "A refused loading gives an empty desk", as a refused format does.
        Err(refusal) => Outcome::refused(areas, &Desk::empty(), refusal),
    }
}

/// Checks 1, 8, 7, 9 and 18, in this order.
fn try_load(areas: &Areas, columns: Columns) -> Result<Pages, Refusal> {
    ask_lengths(areas)?;
    if columns.keys.len() != columns.values.len() {
        return Err(Refusal::ColumnsDiffer);
    }
    // "A key of 0 is refused as an insert's is", wherever it stands in the column.
    if columns.keys.contains(&UNREAD) {
        return Err(Refusal::Unread);
    }
    if !columns.keys.windows(2).all(|pair| pair[0] < pair[1]) {
        return Err(Refusal::NotRising);
    }
    let records: Vec<Entry> = columns.records().collect();
    pages_for(&records, areas.page_count()).ok_or(Refusal::PagesShort)
}

/// The pages and an empty log, in the working and in the stable areas. The working leaves get their left links.
fn written(areas: &Areas, pages: Pages) -> Outcome {
    let page_store = |page| Store::Page { page, bytes: pages.page_bytes(page) };
    let slot_store = |slot| Store::Slot { slot, bytes: [0; SLOT_BYTES] };
    let page_stores = (0..areas.page_count()).map(page_store);
    let stores = page_stores.chain((0..areas.slot_count()).map(slot_store)).collect();
    let mut work = Work { pages, ..Work::formatted(areas.page_count(), areas.slot_count()) };
    link_leaves(&mut work.pages);
    Outcome::done(areas, &work, 0, stores, Answer::Done)
}
