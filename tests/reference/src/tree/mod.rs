//! The tree: its rules, the descent to change a key, the seven changes that the descent makes, and trees that are loaded.

pub(crate) mod change;
mod descent;
mod join;
mod load;

pub use decode::rules::slides_of;
pub use descent::{go_down, Purpose};
pub use load::pages_for;
