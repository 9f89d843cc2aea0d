//! The console program: formats 64 pages and 160 slots, then reads one command a line.

use super::command::{letter_of, read_call};
use super::line::{lines_of, read_line};
use super::vectors::numbers_of;
use super::Instrument;
use crate::calls::Call;

const PAGES: usize = 64;
const SLOTS: usize = 160;

pub struct Console {
    instrument: Instrument,
}

impl Default for Console {
    fn default() -> Console {
        Console::new()
    }
}

impl Console {
    pub fn new() -> Console {
        let mut instrument = Instrument::lent(PAGES, SLOTS);
        instrument.make(Call::Format);
        Console { instrument }
    }

    /// What the program prints for one line, the line end aside.
    pub fn answer(&mut self, line: &[u8]) -> String {
        match read_line(line) {
            Some((b'X', numbers)) if numbers.is_empty() => self.cut_and_restart(),
            Some((letter, numbers)) => match read_call(letter, &numbers) {
                Some(call) => format!("{} {}", letter_of(&call), numbers_of(self.instrument.make(call).answer)),
                None => "?".to_string(),
            },
            None => "?".to_string(),
        }
    }

    /// The power fails between two calls. A fetch stores nothing, so cutting one is just that.
    fn cut_and_restart(&mut self) -> String {
        self.instrument.cut = Some(0);
        self.instrument.make(Call::Fetch { batch: 0, key: 0 });
        format!("X {}", numbers_of(self.instrument.make(Call::Restart).answer))
    }
}

/// The whole output for a whole input.
pub fn run_console(input: &[u8]) -> String {
    let mut console = Console::new();
    lines_of(input).map(|line| console.answer(line) + "\n").collect()
}
