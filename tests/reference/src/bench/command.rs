//! The commands of the vectors: lend, cut, damage, and the fourteen calls.

use super::line::read_line;
use crate::calls::{Call, Columns};
use crate::sizes::DESK_NUMBERS;
use std::fmt;

#[derive(Clone, Copy, Debug, PartialEq, Eq)]
pub enum Command {
    /// Lend areas of these byte lengths: working pages, stable pages, working log, stable log.
    Lend([usize; 4]),
    /// Cut the next call after this many of its stores.
    Cut(usize),
    /// Turn over the bits of one byte of one area.
    Damage {
        area: usize,
        byte: usize,
        bits: u8,
    },
    /// Turn over bits of one of the desk's numbers.
    DamageDesk {
        number: usize,
        bits: u32,
    },
    Call(Call),
}

impl Command {
    pub fn read(line: &[u8]) -> Option<Command> {
        // A line that loads no records may keep the space before the first.
        let line = if line == b"O 0 " { b"O 0" } else { line };
        let (letter, numbers) = read_line(line)?;
        match (letter, numbers.as_slice()) {
            (b'L', [p, q, s, t]) => Some(Command::Lend([*p as usize, *q as usize, *s as usize, *t as usize])),
            (b'K', [stores]) => Some(Command::Cut(*stores as usize)),
            (b'P', [area @ 0..=3, byte, bits @ 0..=255]) => {
                Some(Command::Damage { area: *area as usize, byte: *byte as usize, bits: *bits as u8 })
            }
            (b'd', [number, bits]) if *number < DESK_NUMBERS as u64 => {
                Some(Command::DamageDesk { number: *number as usize, bits: u32::try_from(*bits).ok()? })
            }
            _ => read_call(letter, &numbers).or_else(|| read_other_call(letter, &numbers)).map(Command::Call),
        }
    }
}

/// None if a number does not fit 32 bits.
fn of_32_bits(numbers: &[u64]) -> Option<Vec<u32>> {
    numbers.iter().map(|number| u32::try_from(*number).ok()).collect()
}

/// The calls that the console has too.
pub fn read_call(letter: u8, numbers: &[u64]) -> Option<Call> {
    match (letter, of_32_bits(numbers)?.as_slice()) {
        (b'B', []) => Some(Call::Begin),
        (b'I', &[batch, key, value]) => Some(Call::Insert { batch, key, value }),
        (b'D', &[batch, key]) => Some(Call::Delete { batch, key }),
        (b'F', &[batch, key]) => Some(Call::Fetch { batch, key }),
        (b'N', &[batch, key]) => Some(Call::Next { batch, key }),
        (b'C', &[batch]) => Some(Call::Commit { batch }),
        (b'A', &[batch]) => Some(Call::Abort { batch }),
        (b'W', &[page]) => Some(Call::WriteOut { page }),
        _ => None,
    }
}

fn read_other_call(letter: u8, numbers: &[u64]) -> Option<Call> {
    match (letter, of_32_bits(numbers)?.as_slice()) {
        (b'Z', []) => Some(Call::Format),
        (b'O', [count, numbers @ ..]) => {
            let (keys, values) = numbers.split_at_checked(*count as usize)?;
            Some(Call::Load { columns: Columns::new(keys.to_vec(), values.to_vec()) })
        }
        (b'R', []) => Some(Call::Restart),
        (b'M', &[batch]) => Some(Call::Mark { batch }),
        (b'T', &[batch, mark]) => Some(Call::Return { batch, mark }),
        (b'V', &[batch, key]) => Some(Call::Previous { batch, key }),
        _ => None,
    }
}

pub fn letter_of(call: &Call) -> char {
    match call {
        Call::Format => 'Z',
        Call::Load { .. } => 'O',
        Call::Begin => 'B',
        Call::Fetch { .. } => 'F',
        Call::Next { .. } => 'N',
        Call::Previous { .. } => 'V',
        Call::Insert { .. } => 'I',
        Call::Delete { .. } => 'D',
        Call::Commit { .. } => 'C',
        Call::Abort { .. } => 'A',
        Call::Mark { .. } => 'M',
        Call::Return { .. } => 'T',
        Call::WriteOut { .. } => 'W',
        Call::Restart => 'R',
    }
}

impl fmt::Display for Command {
    fn fmt(&self, to: &mut fmt::Formatter<'_>) -> fmt::Result {
        match self {
            Command::Lend([p, q, s, t]) => write!(to, "L {p} {q} {s} {t}"),
            Command::Cut(stores) => write!(to, "K {stores}"),
            Command::Damage { area, byte, bits } => write!(to, "P {area} {byte} {bits}"),
            Command::DamageDesk { number, bits } => write!(to, "d {number} {bits}"),
            Command::Call(call) => {
                write!(to, "{}", letter_of(call))?;
                match call {
                    Call::Format | Call::Begin | Call::Restart => Ok(()),
                    Call::Load { columns: Columns { keys, values } } => {
                        write!(to, " {}", keys.len())?;
                        keys.iter().chain(*values).try_for_each(|number| write!(to, " {number}"))
                    }
                    Call::Insert { batch, key, value } => write!(to, " {batch} {key} {value}"),
                    Call::Fetch { batch, key }
                    | Call::Next { batch, key }
                    | Call::Previous { batch, key }
                    | Call::Delete { batch, key } => write!(to, " {batch} {key}"),
                    Call::Commit { batch } | Call::Abort { batch } | Call::Mark { batch } => write!(to, " {batch}"),
                    Call::Return { batch, mark } => write!(to, " {batch} {mark}"),
                    Call::WriteOut { page } => write!(to, " {page}"),
                }
            }
        }
    }
}
