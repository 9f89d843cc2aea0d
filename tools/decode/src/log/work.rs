//! Pages, log and open batches together: what a call works on.

use super::apply::apply;
use super::change::page_changes;
use super::{Log, OpenBatches};
use crate::layout::{Kind, Page, Pages, Record};
use crate::left::link_after;
use crate::{Fault, Place, Refusal};

#[derive(Clone, Debug, PartialEq, Eq)]
pub struct Work {
    pub pages: Pages,
    pub log: Log,
    pub open: OpenBatches,
}

impl Work {
    /// A register without slides, of so many pages and slots.
    pub fn formatted(pages: usize, slots: usize) -> Work {
        let log = Log { records: Vec::new(), slots };
        Work { pages: Pages::formatted(pages), log, open: OpenBatches::default() }
    }

    /// Restart's checks 3 and 4, on stable areas of right lengths.
    pub fn read(page_area: &[u8], log_area: &[u8]) -> Result<Work, Fault> {
        Work::with_log(Pages::read(page_area)?, log_area)
    }

    /// The same on working areas, whose leaves have left links.
    pub fn read_working(page_area: &[u8], log_area: &[u8]) -> Result<Work, Fault> {
        Work::with_log(Pages::read_working(page_area)?, log_area)
    }

    fn with_log(pages: Pages, log_area: &[u8]) -> Result<Work, Fault> {
        let log = Log::read(log_area, pages.count())?;
        let open = OpenBatches::after(&log.records)?;
        match pages.list.iter().position(|page| page.log > log.last_number()) {
            Some(page) => Err(ahead(page, pages.list[page].log, log.last_number())),
            None => Ok(Work { pages, log, open }),
        }
    }

    pub fn page(&self, number: usize) -> &Page {
        &self.pages.list[number]
    }

    /// Refused when the next record has no slot. Asked before a page is taken, so that 17 goes before 18.
    pub fn ask_for_slot(&self) -> Result<(), Refusal> {
        if self.log.is_full() {
            Err(Refusal::SlotsShort)
        } else {
            Ok(())
        }
    }

    /// Write the record into the next slot and carry it out on the pages.
    pub fn write(&mut self, mut record: Record) -> Result<(), Refusal> {
        self.ask_for_slot()?;
        record.own = self.log.last_number() + 1;
        if record.kind == Kind::Begin {
            record.batch = record.own;
        }
        let fits = self.open.follow(&record);
        debug_assert!(fits.is_ok(), "a call writes only what the chain allows");
        for (role, number) in page_changes(&record) {
            apply(&mut self.pages, &record, role, number);
        }
        link_after(&mut self.pages, &record);
        self.log.records.push(record);
        Ok(())
    }

    /// Write a record that says only something about a batch: its commit, abort mark or end.
    pub fn write_about_batch(&mut self, kind: Kind, batch: u32) -> Result<(), Refusal> {
        let previous = self.open.find(batch).map_or(0, |open| open.last);
        self.write(Record { batch, previous, ..Record::new(kind) })
    }
}

fn ahead(page: usize, number: u32, last: u32) -> Fault {
    let rule = format!("record {number} changed it, and the log's last record is {last}");
    Fault::new(Refusal::Log, Place::Page(page), rule)
}
