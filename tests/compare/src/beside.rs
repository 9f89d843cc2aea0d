//! The library beside the model: one call of both, and every answer and byte compared.

use crate::difference::{same_area, same_desk, same_number, Difference};
use crate::library;
use crate::loan::Loan;
use crate::rules;
use crate::tally::Tally;
use reference::calls::{call, Answer, Call, Outcome};
use reference::layout::{Areas, Desk};
use reference::Refusal;

pub struct Beside {
    pub loan: Loan,
    pub tally: Tally,
}

impl Beside {
    pub fn new() -> Beside {
        Beside { loan: Loan::new(), tally: Tally::default() }
    }

    /// Make a call on these areas and this desk, by both. Answers what the model gives, which is what the library gave.
    pub fn try_on(&mut self, areas: &Areas, desk: &Desk, made: Call) -> Result<Outcome, Difference> {
        self.loan.set(areas, desk);
        self.compare(areas, desk, made)
    }

    /// The same where the areas and the desk are those that are lent already: the library works on what it left.
    pub fn go_on(&mut self, areas: &Areas, desk: &Desk, made: Call) -> Result<Outcome, Difference> {
        self.loan.turn();
        self.compare(areas, desk, made)
    }

    fn compare(&mut self, areas: &Areas, desk: &Desk, made: Call) -> Result<Outcome, Difference> {
        let outcome = call(areas, desk, made);
        self.check(areas, desk, made, &outcome)?;
        Ok(outcome)
    }

    /// The library's call alone, on what is lent, where the model's outcome is known.
    pub fn check(&mut self, areas: &Areas, desk: &Desk, made: Call, outcome: &Outcome) -> Result<(), Difference> {
        let reason = self.make(made);
        self.judge(areas, desk, made, reason, outcome)
    }

    /// The library's call, on what is lent; answers what it returns.
    pub fn make(&mut self, made: Call) -> u32 {
        self.loan.clear_values();
        let (reason, stack) = library::call(&mut self.loan, made);
        self.tally.count(made, reason, stack);
        reason
    }

    /// Whether the library returned and left what the model's outcome says.
    pub fn judge(
        &self,
        areas: &Areas,
        desk: &Desk,
        made: Call,
        reason: u32,
        outcome: &Outcome,
    ) -> Result<(), Difference> {
        self.same_as(reason, outcome)?;
        rules::check(made, reason, areas, desk, &self.loan)?;
        if made == Call::Restart {
            same_number("restart's answer", reason, inspect::why(areas).0)
                .map_err(|difference| difference.at("inspect"))?;
        }
        Ok(())
    }

    fn same_as(&self, reason: u32, outcome: &Outcome) -> Result<(), Difference> {
        let [model_reason, first, second] = numbers_of(outcome.answer);
        same_number("the answer", reason, model_reason)?;
        same_number("the first value", self.loan.value(0), first)?;
        same_number("the second value", self.loan.value(1), second)?;
        for (place, model) in outcome.areas.each().into_iter().enumerate() {
            same_area(place, &self.loan.areas[place], model)?;
        }
        same_desk(&self.loan.desk, &outcome.desk.bytes())?;
        if !self.loan.guards_hold() {
            return Err(Difference::new("the library wrote beyond what it was lent"));
        }
        Ok(())
    }
}

/// What the C function returns, and its two values.
fn numbers_of(answer: Result<Answer, Refusal>) -> [u32; 3] {
    match answer {
        Ok(Answer::Done) => [0, 0, 0],
        Ok(Answer::Batch(number) | Answer::Mark(number) | Answer::Value(number)) => [0, number, 0],
        Ok(Answer::Slide { key, value }) => [0, key, value],
        Ok(Answer::Restarted { ended, changes }) => [0, ended, changes],
        Err(refusal) => [u32::from(refusal.number()), 0, 0],
    }
}
