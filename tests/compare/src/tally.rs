//! What the calls answered, counted: a comparison that never met a refusal has not compared it.

use crate::rules::reasons;
use reference::bench::letter_of;
use reference::calls::Call;
use std::collections::BTreeMap;

#[derive(Clone, Debug, Default)]
pub struct Tally {
    /// By the call's letter and what it returned.
    answers: BTreeMap<(char, u32), usize>,
    /// The most bytes of stack that a call took, by its letter.
    stacks: BTreeMap<char, usize>,
}

/// No register that the calls have built gives these, and no sound one.
const NEVER_MET: [(char, u32); 2] = [('A', 19), ('T', 19)];

impl Tally {
    pub fn count(&mut self, made: Call, reason: u32, stack: usize) {
        let letter = letter_of(&made);
        *self.answers.entry((letter, reason)).or_default() += 1;
        self.deepen(letter, stack);
    }

    fn deepen(&mut self, letter: char, stack: usize) {
        let deepest = self.stacks.entry(letter).or_default();
        *deepest = stack.max(*deepest);
    }

    /// The deepest stack of each call, in words.
    pub fn deepest(&self) -> String {
        let stacks: Vec<String> = self.stacks.iter().map(|(letter, bytes)| format!("{letter} {bytes}")).collect();
        stacks.join(", ")
    }

    pub fn calls(&self) -> usize {
        self.answers.values().sum()
    }

    pub fn add(&mut self, other: &Tally) {
        for (answer, count) in &other.answers {
            *self.answers.entry(*answer).or_default() += count;
        }
        for (letter, stack) in &other.stacks {
            self.deepen(*letter, *stack);
        }
    }

    pub fn met(&self, made: Call, reason: u32) -> bool {
        self.answers.contains_key(&(letter_of(&made), reason))
    }

    /// The answers of these calls that are on its list and were not met.
    pub fn missed(&self, calls: &[Call]) -> Vec<(char, u32)> {
        let listed = calls.iter().flat_map(|call| {
            let letter = letter_of(call);
            reasons(*call).iter().chain(&[0]).map(move |reason| (letter, *reason))
        });
        listed.filter(|answer| !NEVER_MET.contains(answer) && !self.answers.contains_key(answer)).collect()
    }
}

impl std::fmt::Display for Tally {
    fn fmt(&self, to: &mut std::fmt::Formatter<'_>) -> std::fmt::Result {
        let answers: Vec<String> =
            self.answers.iter().map(|((letter, reason), count)| format!("{letter} {reason}: {count}")).collect();
        to.write_str(&answers.join(", "))
    }
}
