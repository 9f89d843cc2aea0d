//! The edges: the deepest trees, the most pending updates, exact room and one place short of it, the largest counts, first
//! and last keys, key 0, marks and returns, loads, steps backwards, pages of 4 and 14 entries, and two registers at once.

mod backwards;
mod calls;
mod deep;
mod loading;
mod marks;
mod pending;
mod rooms;
mod threads;
mod tree;
mod unread;
mod written;

pub use backwards::backwards;
pub use deep::{built_trees, risen_tree};
pub use loading::{all_loads, loads};
pub use marks::marks;
pub use pending::most_pending;
pub use rooms::{exact_pages, exact_slots};
pub use threads::two_threads;
pub use unread::key_0;
pub use written::largest_redo;
