//! Redo: from record 1 on, each page change whose page log number is lower is made again.

use super::apply::apply;
use super::change::page_changes;
use super::start::starts_from;
use crate::layout::{Pages, Record};
use crate::{Fault, Place, Refusal};

/// Answers the number of pairs of record and page where the page's number was lower when redo reached them.
pub fn redo(pages: &mut Pages, records: &[Record]) -> Result<u32, Fault> {
    let mut applied = 0;
    for record in records {
        for (role, number) in page_changes(record) {
            // A page that has this record's number or a later one was stored with the change in it. So it is too where
            // a forged record names one page twice: the second change is passed over.
            if pages.list[number].log >= record.own {
                continue;
            }
            if let Err(rule) = starts_from(pages, record, role, number) {
                let place = Place::Change { slot: record.own as usize, page: number };
                return Err(Fault::new(Refusal::Redo, place, rule));
            }
            apply(pages, record, role, number);
            applied += 1;
        }
    }
    Ok(applied)
}
