//! Reads the slide register's areas: pages, records and the desk, and judges them as a restart does. What is broken is
//! said in words, with its place. Plain Rust, not proved; the reference model and the program `inspect` are built on it.
//!
//! - `layout`: the fields of pages, records and the desk, and their bytes both ways (refusal 3, and the rows of 4).
//! - `log`: what a record changes, from what it starts (5), redo, the batches that the log leaves open, the pending rule.
//! - `rules`: the tree rules (6).
//! - `left`: the left links of working leaves, which nothing that is stored has.

pub mod layout;
pub mod left;
pub mod log;
pub mod rules;
pub mod sizes;

mod fault;
mod refusal;
pub use fault::{Fault, Place};
pub use refusal::Refusal;
