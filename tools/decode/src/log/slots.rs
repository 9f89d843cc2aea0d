//! A whole log area: its full slots come first, and slot n holds record n.

use crate::layout::{obeys_row, Record};
use crate::sizes::SLOT_BYTES;
use crate::{Fault, Place, Refusal};

#[derive(Clone, Debug, PartialEq, Eq)]
pub struct Log {
    pub records: Vec<Record>,
    /// How many slots are lent, full or empty.
    pub slots: usize,
}

impl Log {
    /// Refused (4) where a slot breaks its row or number, names a page not below the page count, or follows an empty one.
    pub fn read(area: &[u8], page_count: usize) -> Result<Log, Fault> {
        let (records, fault) = Log::first_part(area, page_count);
        match fault {
            Some(fault) => Err(fault),
            None => Ok(Log { records, slots: area.len() / SLOT_BYTES }),
        }
    }

    /// The records up to the first slot that is broken, each judged by itself, and what is wrong with that slot.
    pub fn first_part(area: &[u8], page_count: usize) -> (Vec<Record>, Option<Fault>) {
        let mut records = Vec::new();
        let full = area.chunks_exact(SLOT_BYTES).take_while(|slot| !is_empty_slot(slot));
        for (bytes, slot) in full.zip(1..) {
            match read_slot(bytes, slot, page_count) {
                Ok(record) => records.push(record),
                Err(fault) => return (records, Some(fault)),
            }
        }
        let rest = &area[records.len() * SLOT_BYTES..];
        let fault = (!is_empty_slot(rest)).then(|| after_an_empty_one(records.len() + 1, rest));
        (records, fault)
    }

    pub fn bytes(&self) -> Vec<u8> {
        let mut bytes: Vec<u8> = self.records.iter().flat_map(Record::bytes).collect();
        bytes.resize(self.slots * SLOT_BYTES, 0);
        bytes
    }

    pub fn is_full(&self) -> bool {
        self.records.len() == self.slots
    }

    pub fn last_number(&self) -> u32 {
        self.records.len() as u32
    }
}

/// "An empty slot is all zero."
pub fn is_empty_slot(bytes: &[u8]) -> bool {
    bytes.iter().fold(0, |any, byte| any | byte) == 0
}

/// One full slot, which is to hold the record of this number.
pub fn read_slot(bytes: &[u8], slot: usize, page_count: usize) -> Result<Record, Fault> {
    let broken = |place, rule| Fault::new(Refusal::Log, place, rule);
    let record = Record::judge(bytes).map_err(|(byte, rule)| broken(Place::SlotByte(slot, byte), rule))?;
    if record.own as usize != slot {
        return Err(broken(Place::SlotByte(slot, 4), format!("it gives its own number as {}", record.own)));
    }
    obeys_row(&record).map_err(|rule| broken(Place::Slot(slot), rule))?;
    match [record.a, record.b, record.c].into_iter().find(|page| *page >= page_count) {
        Some(page) => Err(broken(Place::SlotByte(slot, 16), format!("it names page {page}, which is not lent"))),
        None => Ok(record),
    }
}

fn after_an_empty_one(empty: usize, rest: &[u8]) -> Fault {
    let byte = rest.iter().position(|byte| *byte != 0).unwrap_or(0);
    let place = Place::SlotByte(empty + byte / SLOT_BYTES, byte % SLOT_BYTES);
    Fault::new(Refusal::Log, place, format!("it is full, and slot {empty} before it is empty"))
}
