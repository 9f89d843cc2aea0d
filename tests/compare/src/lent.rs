//! Memory that is lent to the library. It ends where a page without access begins, or begins where one ends, by turns, so
//! that a byte read beyond either end is seen; and at the third turn it stands at an odd address between bytes that no
//! call may touch, as the header asks for no alignment.

use crate::machine::Memory;
use std::ops::{Deref, DerefMut, Range};

const GUARD_BYTES: usize = 64;
const GUARD: u8 = 0x5C;

pub struct Lent {
    memory: Memory,
    /// How far from an even address the third turn is.
    skew: usize,
    turn: usize,
    from: usize,
    length: usize,
}

impl Lent {
    /// Each part begins with another turn, and has another skew.
    pub fn new(number: usize) -> Lent {
        let mut lent = Lent { memory: Memory::new(1), skew: 7 * number + 1, turn: number, from: 0, length: 0 };
        lent.set(&[]);
        lent
    }

    /// Lend these bytes, at the next turn's place.
    pub fn set(&mut self, bytes: &[u8]) {
        let room = bytes.len() + 2 * GUARD_BYTES + self.skew;
        if room > self.memory.len() {
            self.memory = Memory::new(room);
        }
        self.turn = (self.turn + 1) % 3;
        self.from = [self.memory.len() - bytes.len(), 0, GUARD_BYTES + self.skew][self.turn];
        self.length = bytes.len();
        for guard in self.guards() {
            self.memory.bytes_mut()[guard].fill(GUARD);
        }
        self.copy_from_slice(bytes);
    }

    /// Lend the same bytes at the next turn's place.
    pub fn turn(&mut self) {
        let bytes = self.to_vec();
        self.set(&bytes);
    }

    /// The next call is held up where it touches this byte's page.
    pub fn hold_at(&mut self, place: usize) {
        self.memory.hold_at(self.from + place);
    }

    pub fn pointer(&mut self, read_only: bool) -> *mut u8 {
        self.memory.pointer(self.from, read_only)
    }

    /// The bytes before and after, as far as there are some.
    fn guards(&self) -> [Range<usize>; 2] {
        let to = self.from + self.length;
        [self.from.saturating_sub(GUARD_BYTES)..self.from, to..(to + GUARD_BYTES).min(self.memory.len())]
    }

    pub fn guards_hold(&self) -> bool {
        self.guards().into_iter().all(|guard| self.memory.bytes()[guard].iter().all(|byte| *byte == GUARD))
    }
}

impl Deref for Lent {
    type Target = [u8];

    fn deref(&self) -> &[u8] {
        &self.memory.bytes()[self.from..][..self.length]
    }
}

impl DerefMut for Lent {
    fn deref_mut(&mut self) -> &mut [u8] {
        let (from, length) = (self.from, self.length);
        &mut self.memory.bytes_mut()[from..][..length]
    }
}
