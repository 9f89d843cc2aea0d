//! The log: what its records change, redo, the batches it leaves open, and the pending rule.

mod apply;
mod batches;
mod change;
mod pending;
mod redo;
mod slots;
mod start;
mod work;

pub use batches::{Batch, OpenBatches, Update};
pub use change::{page_changes, Role};
pub use pending::obeys_pending_rule;
pub use redo::redo;
pub use slots::{is_empty_slot, read_slot, Log};
pub use work::Work;
