//! The library's fourteen functions, as include/donzhikar.h declares them.

use crate::loan::Loan;
use reference::calls::Call;

/// Which of the four areas the header says are const for a call: they are lent where they can only be read.
fn read_only(made: Call) -> [bool; 4] {
    match made {
        Call::Format | Call::Load { .. } => [false, false, false, false],
        Call::Begin => [true, true, false, true],
        Call::Fetch { .. } | Call::Next { .. } | Call::Previous { .. } | Call::Mark { .. } => [true, true, true, true],
        Call::Insert { .. } | Call::Delete { .. } | Call::Abort { .. } | Call::Return { .. } => {
            [false, true, false, true]
        }
        Call::Commit { .. } => [true, true, false, false],
        Call::WriteOut { .. } => [true, false, true, false],
        Call::Restart => [false, true, false, false],
    }
}

/// The first twelve arguments are the same for all: the six things lent, each a pointer and a length.
macro_rules! functions {
    ($($name:ident($($given:ident: $type:ty),*);)*) => {
        extern "C" {
            $(fn $name(
                work_pages: *mut u8, work_pages_length: usize, stable_pages: *mut u8, stable_pages_length: usize,
                work_log: *mut u8, work_log_length: usize, stable_log: *mut u8, stable_log_length: usize,
                desk: *mut u8, desk_length: usize, values: *mut u8, values_length: usize,
                $($given: $type),*
            ) -> u32;)*
        }
    };
}

functions! {
    donzhikar_format();
    donzhikar_load(keys: *const u32, keys_length: usize, slide_values: *const u32, slide_values_length: usize);
    donzhikar_begin();
    donzhikar_fetch(batch: u32, key: u32);
    donzhikar_next(batch: u32, key: u32);
    donzhikar_previous(batch: u32, key: u32);
    donzhikar_insert(batch: u32, key: u32, value: u32);
    donzhikar_delete(batch: u32, key: u32);
    donzhikar_commit(batch: u32);
    donzhikar_abort(batch: u32);
    donzhikar_mark(batch: u32);
    donzhikar_return(batch: u32, mark: u32);
    donzhikar_write_out(page: u32);
    donzhikar_restart();
}

/// Make a call on what is lent, on a stack of 64 KiB; answers what the function returns, and how much stack it took.
pub fn call(loan: &mut Loan, made: Call) -> (u32, usize) {
    loan.set_columns(made);
    let Loan { areas, desk, values, columns, stack } = loan;
    let lengths = areas.each_ref().map(|area| area.len());
    let mut consts = read_only(made).into_iter();
    let areas = areas.each_mut().map(|area| area.pointer(consts.next() == Some(true)));
    let (desk, desk_length) = (desk.pointer(false), desk.len());
    let (values, values_length) = (values.pointer(false), values.len());
    let lengths_of_columns = columns.each_ref().map(|column| column.len() / size_of::<u32>());
    let columns = columns.each_mut().map(|column| column.pointer(true).cast_const().cast::<u32>());
    macro_rules! make {
        ($name:ident $(, $given:expr)*) => {
            // SAFETY: six parts of memory, and a load's columns, that do not overlap, each with its length, and nothing
            // else uses them meanwhile. A lent part is never null, also where it is empty.
            unsafe {
                $name(
                    areas[0], lengths[0], areas[1], lengths[1], areas[2], lengths[2], areas[3], lengths[3],
                    desk, desk_length, values, values_length,
                    $($given),*
                )
            }
        };
    }
    stack.run(|| match made {
        Call::Format => make!(donzhikar_format),
        Call::Load { .. } => {
            make!(donzhikar_load, columns[0], lengths_of_columns[0], columns[1], lengths_of_columns[1])
        }
        Call::Begin => make!(donzhikar_begin),
        Call::Fetch { batch, key } => make!(donzhikar_fetch, batch, key),
        Call::Next { batch, key } => make!(donzhikar_next, batch, key),
        Call::Previous { batch, key } => make!(donzhikar_previous, batch, key),
        Call::Insert { batch, key, value } => make!(donzhikar_insert, batch, key, value),
        Call::Delete { batch, key } => make!(donzhikar_delete, batch, key),
        Call::Commit { batch } => make!(donzhikar_commit, batch),
        Call::Abort { batch } => make!(donzhikar_abort, batch),
        Call::Mark { batch } => make!(donzhikar_mark, batch),
        Call::Return { batch, mark } => make!(donzhikar_return, batch, mark),
        Call::WriteOut { page } => make!(donzhikar_write_out, page),
        Call::Restart => make!(donzhikar_restart),
    })
}
