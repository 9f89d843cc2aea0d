//! The fields of pages, log records and the desk, and their bytes both ways.
//!
//! "Spare bits and unused entries are zero" is judged in one way everywhere: the fields read from the bytes, written
//! again, must give the same bytes. What a field may hold is judged beside the type that has it.

mod area;
mod desk;
mod entry;
mod map;
mod page;
mod pages;
mod record;
mod row;
mod words;

pub use area::{Areas, Store};
pub use desk::{Desk, Row};
pub use entry::{entry_place, Entry};
pub use map::Map;
pub use page::{Page, PageKind};
pub use pages::Pages;
pub use record::{Kind, Record};
pub use row::obeys_row;
