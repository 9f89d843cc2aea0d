//! What the tests need around the calls: an instrument with a plug to pull, the vector and console formats, random
//! traces, and the plain book of 01 and 02.

pub mod any;
mod book;
mod careless;
mod command;
mod console;
mod explain;
pub mod forge;
mod full;
mod hash;
mod instrument;
mod line;
mod random;
mod trace;
mod vectors;

pub use book::Book;
pub use careless::{careless, Careless};
pub use command::{letter_of, Command};
pub use console::run_console;
pub use console::Console;
pub use explain::explain;
pub use full::{full_register, image_of};
pub use instrument::{Event, Instrument};
pub use random::Random;
pub use trace::{damaged_trace, run, trace, Run, Shape};
pub use vectors::{areas_after, run_vectors};
