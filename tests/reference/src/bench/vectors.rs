//! The vectors' output: one line a call, with the answer, the number of stores and the hashes of what it left.

use super::command::letter_of;
use super::hash::{fnv1a, AreaHash};
use super::line::lines_of;
use super::{Command, Event, Instrument};
use crate::calls::Answer;
use crate::layout::Areas;
use crate::Refusal;
use std::fmt::Write;

/// Run a whole input. The error is the number of the first line that is no command.
pub fn run_vectors(input: &[u8]) -> Result<String, usize> {
    let mut instrument = Instrument::default();
    let mut hashes: [AreaHash; 4] = Default::default();
    let mut output = String::new();
    for (line, number) in lines_of(input).zip(1usize..) {
        let command = Command::read(line).ok_or(number)?;
        if let Some(event) = instrument.run(&command) {
            output.push_str(&line_of(&event, &instrument, &mut hashes));
        }
    }
    Ok(output)
}

/// The areas that a whole input leaves. The error is the number of the first line that is no command.
pub fn areas_after(input: &[u8]) -> Result<Areas, usize> {
    let mut instrument = Instrument::default();
    for (line, number) in lines_of(input).zip(1usize..) {
        instrument.run(&Command::read(line).ok_or(number)?);
    }
    Ok(instrument.areas)
}

fn line_of(event: &Event, instrument: &Instrument, hashes: &mut [AreaHash; 4]) -> String {
    let mut line = format!("{} s {}", answer_of(event), event.carried_out);
    for (area, hash) in instrument.areas.each().into_iter().zip(hashes) {
        let _ = write!(line, " {:016x}", hash.of(area));
    }
    let _ = writeln!(line, " {:016x}", fnv1a(&instrument.desk.bytes()));
    line
}

/// The letter, then 0 and the answers, the refusal, or K.
pub fn answer_of(event: &Event) -> String {
    let letter = letter_of(&event.call);
    if event.was_cut {
        format!("{letter} K")
    } else {
        format!("{letter} {}", numbers_of(event.answer))
    }
}

/// "0 or the refusal, then after a 0 any answers."
pub fn numbers_of(answer: Result<Answer, Refusal>) -> String {
    match answer {
        Ok(Answer::Done) => "0".to_string(),
        Ok(Answer::Batch(number) | Answer::Mark(number) | Answer::Value(number)) => format!("0 {number}"),
        Ok(Answer::Slide { key, value }) => format!("0 {key} {value}"),
        Ok(Answer::Restarted { ended, changes }) => format!("0 {ended} {changes}"),
        Err(refusal) => refusal.number().to_string(),
    }
}
