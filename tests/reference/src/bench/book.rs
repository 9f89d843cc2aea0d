//! The plain book of 01 and 02: the slides, and a sheet for each open case. It is fed the calls, their answers, each
//! update's record number and, of a cut commit, whether its commit record was stored; it knows nothing of pages or logs.

use super::Event;
use crate::calls::{Answer, Call};
use crate::layout::Desk;
use std::collections::BTreeMap;

#[derive(Clone, Debug, Default, PartialEq, Eq)]
pub struct Book {
    pub slides: BTreeMap<u32, u32>,
    sheets: BTreeMap<u32, Vec<Line>>,
}

/// A line of a sheet: its update's record number, the key, and its value if it is put in, or none if it is taken out.
#[derive(Clone, Debug, PartialEq, Eq)]
struct Line {
    number: u32,
    key: u32,
    value: Option<u32>,
}

impl Book {
    /// A book with these slides, and no case open.
    pub fn of(slides: BTreeMap<u32, u32>) -> Book {
        Book { slides, sheets: BTreeMap::new() }
    }

    /// The book after an event that left this desk, where there is one: none stands between a cut formatting or loading and
    /// the next finished one.
    pub fn after(book: Option<Book>, event: &Event, desk: &Desk) -> Option<Book> {
        match (event.call, event.answer.is_ok(), event.was_cut) {
            (Call::Format | Call::Load { .. }, true, true) => None,
            (Call::Format, true, false) => Some(Book::default()),
            // "The book starts with the columns."
            (Call::Load { columns }, true, false) => {
                Some(Book::of(columns.records().map(|slide| (slide.key, slide.value)).collect()))
            }
            _ => book.map(|mut book| {
                book.take(event, desk);
                book
            }),
        }
    }

    pub fn take(&mut self, event: &Event, desk: &Desk) {
        match (event.call, event.finished()) {
            // "Begin opens one under its answer."
            (_, Some(Answer::Batch(batch))) => drop(self.sheets.insert(batch, Vec::new())),
            (Call::Insert { batch, key, value }, Some(_)) => self.note(batch, key, Some(value), desk),
            (Call::Delete { batch, key }, Some(_)) => self.note(batch, key, None, desk),
            (Call::Return { batch, mark }, Some(_)) => self.strike_above(batch, mark),
            (Call::Abort { batch }, Some(_)) => drop(self.sheets.remove(&batch)),
            (Call::Restart, Some(_)) => self.sheets.clear(),
            // "A commit, finished or cut with its commit record stored."
            (Call::Commit { batch }, _) if event.is_stored_whole() => self.carry_out(batch),
            _ => {}
        }
    }

    /// "Each update's record number, which the desk then gives as the batch's last record."
    fn note(&mut self, batch: u32, key: u32, value: Option<u32>, desk: &Desk) {
        let number = desk.last_of(batch).expect("a batch that has just made an update is open");
        self.sheets.entry(batch).or_default().push(Line { number, key, value });
    }

    /// "A return strikes the lines with a number above its mark."
    fn strike_above(&mut self, batch: u32, mark: u32) {
        self.sheets.entry(batch).or_default().retain(|line| line.number <= mark);
    }

    /// Carry out a case's sheet on the slides, in order, and drop it.
    fn carry_out(&mut self, batch: u32) {
        for Line { key, value, .. } in self.sheets.remove(&batch).unwrap_or_default() {
            match value {
                Some(value) => self.slides.insert(key, value),
                None => self.slides.remove(&key),
            };
        }
    }
}
