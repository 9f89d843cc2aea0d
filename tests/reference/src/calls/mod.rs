//! The fourteen calls, each a function from areas and desk to an outcome. Checks go in the order of the refusals' numbers.

mod batch;
mod begin;
mod end;
mod load;
mod marks;
mod outcome;
mod read;
mod restart;
mod sound;
mod undo;
mod update;
mod write_out;

pub use end::take_back;
pub use load::Columns;
pub use outcome::{Answer, Outcome};
pub use restart::{redo_alone, try_restart, Restarted};
pub use sound::{pages_suffice, slots_suffice, sound, Sound};
pub use undo::undo_above;
pub use update::write_update;

pub(crate) use undo::undo_newest;
pub(crate) use update::update;

use crate::layout::{Areas, Desk};

#[derive(Clone, Copy, Debug, PartialEq, Eq)]
pub enum Call {
    Format,
    Load { columns: Columns },
    Begin,
    Fetch { batch: u32, key: u32 },
    Next { batch: u32, key: u32 },
    Previous { batch: u32, key: u32 },
    Insert { batch: u32, key: u32, value: u32 },
    Delete { batch: u32, key: u32 },
    Commit { batch: u32 },
    Abort { batch: u32 },
    Mark { batch: u32 },
    Return { batch: u32, mark: u32 },
    WriteOut { page: u32 },
    Restart,
}

impl Call {
    /// "A loading counts as a formatting": both build a register anew, and only another one helps after one that was cut.
    pub fn is_formatting(self) -> bool {
        matches!(self, Call::Format | Call::Load { .. })
    }

    /// Whether the call makes areas and desk anew, whatever they are. A refused one gives an empty desk.
    pub fn starts_anew(self) -> bool {
        self.is_formatting() || self == Call::Restart
    }
}

/// One call on what the last one left. Refusals included, the outcome is all there is to say about it.
pub fn call(areas: &Areas, desk: &Desk, call: Call) -> Outcome {
    match call {
        Call::Format => load::load(areas, Columns::NONE),
        Call::Load { columns } => load::load(areas, columns),
        Call::Begin => begin::begin(areas, desk),
        Call::Fetch { batch, key } => read::fetch(areas, desk, batch, key),
        Call::Next { batch, key } => read::next(areas, desk, batch, key),
        Call::Previous { batch, key } => read::previous(areas, desk, batch, key),
        Call::Insert { batch, key, value } => update::insert(areas, desk, batch, key, value),
        Call::Delete { batch, key } => update::delete(areas, desk, batch, key),
        Call::Commit { batch } => end::commit(areas, desk, batch),
        Call::Abort { batch } => end::abort(areas, desk, batch),
        Call::Mark { batch } => marks::mark(areas, desk, batch),
        Call::Return { batch, mark } => marks::return_to(areas, desk, batch, mark),
        Call::WriteOut { page } => write_out::write_out(areas, desk, page),
        Call::Restart => restart::restart(areas),
    }
}
