//! An instrument that holds the areas and the desk between calls, and whose plug can be pulled.

use super::Command;
use crate::calls::{call, Answer, Call, Outcome};
use crate::layout::{Areas, Desk};
use crate::sizes::DESK_NUMBERS;
use crate::Refusal;

/// What a cut leaves in the working areas. 01 says "anything"; the vectors take this byte.
const AFTER_CUT: u8 = 0xA5;

#[derive(Clone, Debug, Default, PartialEq, Eq)]
pub struct Instrument {
    pub areas: Areas,
    pub desk: Desk,
    /// After how many stores the next call is cut.
    pub cut: Option<usize>,
}

/// A call that was made: cut, or with its answer.
#[derive(Clone, Debug, PartialEq, Eq)]
pub struct Event {
    pub call: Call,
    /// What the call answers where it is not cut.
    pub answer: Result<Answer, Refusal>,
    pub was_cut: bool,
    /// How many of its stores were carried out, and how many it has.
    pub carried_out: usize,
    pub stores: usize,
}

impl Event {
    /// Whether the call came to its end with answer 0.
    pub fn finished(&self) -> Option<Answer> {
        self.answer.ok().filter(|_| !self.was_cut)
    }

    /// A commit's own record is the last of its stores, so it is stored when all are.
    pub fn is_stored_whole(&self) -> bool {
        self.answer.is_ok() && self.carried_out == self.stores
    }
}

impl Instrument {
    /// Areas of these numbers of pages and slots, all zero.
    pub fn lent(pages: usize, slots: usize) -> Instrument {
        let mut instrument = Instrument::default();
        instrument.lend(lengths(pages, slots));
        instrument
    }

    /// Carry out a command; answers an event if it was a call.
    pub fn run(&mut self, command: &Command) -> Option<Event> {
        match *command {
            Command::Lend(lengths) => self.lend(lengths),
            Command::Cut(stores) => self.cut = Some(stores),
            Command::Damage { area, byte, bits } => self.damage(area, byte, bits),
            Command::DamageDesk { number, bits } => self.damage_desk(number, bits),
            Command::Call(call) => return Some(self.make(call)),
        }
        None
    }

    /// What a call would give here if it were not cut.
    pub fn outcome_of(&self, made: Call) -> Outcome {
        call(&self.areas, &self.desk, made)
    }

    pub fn make(&mut self, made: Call) -> Event {
        let outcome = self.outcome_of(made);
        self.take(made, outcome)
    }

    /// Take what a call gives, or what a cut leaves of it.
    pub fn take(&mut self, made: Call, outcome: Outcome) -> Event {
        let cut = self.cut.take();
        let stores = outcome.stores.len();
        let carried_out = cut.map_or(stores, |limit| limit.min(stores));
        let answer = outcome.answer;
        if cut.is_some() {
            self.pull_plug(&outcome, carried_out);
        } else {
            self.areas = outcome.areas;
            self.desk = outcome.desk;
        }
        Event { call: made, answer, was_cut: cut.is_some(), carried_out, stores }
    }

    /// The power fails after so many of an outcome's stores: the stable areas have these, and the rest is lost.
    pub fn pull_plug(&mut self, outcome: &Outcome, carried_out: usize) {
        for store in &outcome.stores[..carried_out] {
            self.areas.carry_out(store);
        }
        self.areas.fill_working(AFTER_CUT);
        self.desk = Desk::of_numbers([u32::from_be_bytes([AFTER_CUT; 4]); DESK_NUMBERS]);
    }

    fn lend(&mut self, lengths: [usize; 4]) {
        for (area, length) in self.areas.each_mut().into_iter().zip(lengths) {
            area.resize(length, 0);
        }
    }

    fn damage(&mut self, area: usize, byte: usize, bits: u8) {
        if let Some(byte) = self.areas.each_mut()[area].get_mut(byte) {
            *byte ^= bits;
        }
    }

    fn damage_desk(&mut self, number: usize, bits: u32) {
        let mut numbers = self.desk.numbers();
        numbers[number] ^= bits;
        self.desk = Desk::of_numbers(numbers);
    }
}

/// The four byte lengths of so many pages and slots.
pub fn lengths(pages: usize, slots: usize) -> [usize; 4] {
    let page_bytes = pages * crate::sizes::PAGE_BYTES;
    let log_bytes = slots * crate::sizes::SLOT_BYTES;
    [page_bytes, page_bytes, log_bytes, log_bytes]
}
