//! Looks into a stored image of the slide register: what it holds, which rule it breaks and where, and what can be brought
//! back. It is built on the decoders of the reference model. **It is not proved**, and it never changes what it reads.
//!
//! Every command gives lines of text; only `salvage` writes a file, a new one.

mod columns;
mod copies;
mod diff;
mod group;
mod image;
mod log;
mod salvage;
mod slides;
mod start;
mod summary;
mod svg;
mod text;
mod tree;
mod why;

pub use columns::read_columns;
pub use diff::diff;
pub use image::{Image, Lost, Shape};
pub use log::{log, Which};
pub use salvage::{salvage, Salvaged};
pub use slides::slides;
pub use summary::summary;
pub use svg::svg;
pub use tree::tree;
pub use why::{why, why_image};
