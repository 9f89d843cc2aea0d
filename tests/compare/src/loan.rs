//! All that a caller lends to a call: the four areas, the desk and room for the answer's two values; to a load its columns.

use crate::lent::Lent;
use crate::machine::Stack;
use reference::calls::{Call, Columns};
use reference::layout::{Areas, Desk};
use std::array::from_fn;

pub const VALUES_BYTES: usize = 8;

/// What stands in the values before a call: a call that does not write them is seen.
pub const UNWRITTEN: u8 = 0xEE;

pub struct Loan {
    /// Working pages, stable pages, working log, stable log.
    pub areas: [Lent; 4],
    pub desk: Lent,
    pub values: Lent,
    /// A load's keys and values, as numbers of the machine.
    pub columns: [Lent; 2],
    /// What a call runs on.
    pub stack: Stack,
}

impl Loan {
    pub fn new() -> Loan {
        let (areas, desk, values) = (from_fn(Lent::new), Lent::new(4), Lent::new(5));
        // Numbers for which the third turn, too, is aligned as C's numbers of 32 bits are.
        let columns = [Lent::new(9), Lent::new(13)];
        let mut loan = Loan { areas, desk, values, columns, stack: Stack::new() };
        loan.clear_values();
        loan
    }

    pub fn set(&mut self, areas: &Areas, desk: &Desk) {
        for (lent, bytes) in self.areas.iter_mut().zip(areas.each()) {
            lent.set(bytes);
        }
        self.desk.set(&desk.bytes());
    }

    /// The same areas and desk, at other places.
    pub fn turn(&mut self) {
        self.areas.iter_mut().chain([&mut self.desk]).for_each(Lent::turn);
    }

    pub fn clear_values(&mut self) {
        self.values.set(&[UNWRITTEN; VALUES_BYTES]);
    }

    /// Lend the columns of a load.
    pub fn set_columns(&mut self, made: Call) {
        let Call::Load { columns: Columns { keys, values } } = made else {
            return;
        };
        for (lent, column) in self.columns.iter_mut().zip([keys, values]) {
            lent.set(&column.iter().flat_map(|number| number.to_ne_bytes()).collect::<Vec<u8>>());
        }
    }

    /// The answer's first or second value.
    pub fn value(&self, which: usize) -> u32 {
        u32::from_be_bytes(from_fn(|place| self.values[4 * which + place]))
    }

    pub fn guards_hold(&self) -> bool {
        self.areas.iter().chain([&self.desk, &self.values]).chain(&self.columns).all(Lent::guards_hold)
    }
}
