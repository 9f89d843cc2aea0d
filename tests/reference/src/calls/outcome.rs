//! What a call gives: its answer, the areas, the desk and the list of its stores.

use crate::layout::{Areas, Desk, Store};
use crate::log::Work;
use crate::Refusal;

#[derive(Clone, Copy, Debug, PartialEq, Eq)]
pub enum Answer {
    Done,
    Batch(u32),
    Mark(u32),
    Value(u32),
    Slide { key: u32, value: u32 },
    Restarted { ended: u32, changes: u32 },
}

#[derive(Clone, Debug, PartialEq, Eq)]
pub struct Outcome {
    pub answer: Result<Answer, Refusal>,
    pub areas: Areas,
    pub desk: Desk,
    pub stores: Vec<Store>,
}

impl Outcome {
    /// "A refusal changes nothing."
    pub fn refused(areas: &Areas, desk: &Desk, refusal: Refusal) -> Outcome {
        Outcome { answer: Err(refusal), areas: areas.clone(), desk: *desk, stores: Vec::new() }
    }

    /// The answer of a call that only looked.
    pub fn unchanged(areas: &Areas, desk: &Desk, answer: Answer) -> Outcome {
        Outcome { answer: Ok(answer), areas: areas.clone(), desk: *desk, stores: Vec::new() }
    }

    /// The working areas and the desk are what the work says, and the stable ones have the stores. `stored` counts the
    /// records of the stable log afterwards.
    pub fn done(areas: &Areas, work: &Work, stored: u32, stores: Vec<Store>, answer: Answer) -> Outcome {
        let mut after = Areas {
            working_pages: work.pages.bytes(),
            stable_pages: areas.stable_pages.clone(),
            working_log: work.log.bytes(),
            stable_log: areas.stable_log.clone(),
        };
        for store in &stores {
            after.carry_out(store);
        }
        let desk = work.open.desk(work.log.last_number(), stored);
        Outcome { answer: Ok(answer), areas: after, desk, stores }
    }
}

/// "Stores every unstored record, in order": the log goes first, so no page is ever stored before its records.
pub fn store_records(work: &Work, stored: u32) -> Vec<Store> {
    let records = work.log.records.iter().enumerate().skip(stored as usize);
    records.map(|(slot, record)| Store::Slot { slot, bytes: record.bytes() }).collect()
}
