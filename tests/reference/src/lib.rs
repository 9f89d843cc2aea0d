//! A plain model of the slide register of document 01, with requests U1 to U5 of document 02.
//!
//! It is written to be read, and to be compared with: every call is a function from the four areas and the desk to the
//! answer, the areas, the desk and the list of stores. Nothing is kept between calls, so each call reads the areas anew
//! and judges them whole, as 01's "sound" says.
//!
//! What reads and judges the areas is a library of its own, `decode` (`../../tools/decode`), which `inspect` uses too.
//!
//! - `layout`: the fields of pages, records and the desk, and their bytes both ways (from `decode`).
//! - `log`: what a record changes, from what it starts, redo, and the batches that the log leaves open (from `decode`).
//! - `left`: the left links of working leaves (from `decode`).
//! - `tree`: the tree rules (from `decode`), the descent and its seven changes, the pages of a loaded register.
//! - `calls`: the fourteen calls.
//! - `bench`: what the tests need around the calls: power cuts, the vector and console formats, the plain book.

pub mod bench;
pub mod calls;
pub mod tree;

pub use decode::{layout, left, log, sizes, Fault, Place, Refusal};
