//! The desk: eight batch rows, then the counts of records in the working and the stable log.

use super::words::{set_word, word};
use crate::sizes::{DESK_BYTES, DESK_NUMBERS, MOST_BATCHES};

#[derive(Clone, Copy, Debug, Default, PartialEq, Eq)]
pub struct Row {
    pub batch: u32,
    /// The batch's last record.
    pub last: u32,
    /// The batch's newest pending update, 0 if none.
    pub next_to_undo: u32,
    pub pending: u32,
}

#[derive(Clone, Copy, Debug, Default, PartialEq, Eq)]
pub struct Desk {
    /// Used rows first, by rising batch number; the others are zero.
    pub rows: [Row; MOST_BATCHES],
    pub written: u32,
    pub stored: u32,
}

impl Desk {
    pub fn empty() -> Desk {
        Desk::default()
    }

    /// The last record of an open batch. Batch 0 is never open, though unused rows hold 0.
    pub fn last_of(&self, batch: u32) -> Option<u32> {
        self.rows.iter().find(|row| row.batch == batch && batch != 0).map(|row| row.last)
    }

    pub fn of_numbers(numbers: [u32; DESK_NUMBERS]) -> Desk {
        let mut desk = Desk::empty();
        for (row, part) in desk.rows.iter_mut().zip(numbers.chunks_exact(4)) {
            *row = Row { batch: part[0], last: part[1], next_to_undo: part[2], pending: part[3] };
        }
        desk.written = numbers[DESK_NUMBERS - 2];
        desk.stored = numbers[DESK_NUMBERS - 1];
        desk
    }

    pub fn numbers(&self) -> [u32; DESK_NUMBERS] {
        let mut numbers = [0; DESK_NUMBERS];
        for (row, part) in self.rows.iter().zip(numbers.chunks_exact_mut(4)) {
            part.copy_from_slice(&[row.batch, row.last, row.next_to_undo, row.pending]);
        }
        numbers[DESK_NUMBERS - 2] = self.written;
        numbers[DESK_NUMBERS - 1] = self.stored;
        numbers
    }

    pub fn read(bytes: &[u8; DESK_BYTES]) -> Desk {
        Desk::of_numbers(std::array::from_fn(|place| word(bytes, place)))
    }

    pub fn bytes(&self) -> [u8; DESK_BYTES] {
        let mut bytes = [0; DESK_BYTES];
        for (place, number) in self.numbers().into_iter().enumerate() {
            set_word(&mut bytes, place, number);
        }
        bytes
    }
}
