//! Damaged logs: records that are swapped, repeated, left out, torn or cut off. Each is tried as it stands, and with the
//! records numbered by their places, so that not every one breaks on its number alone.

use super::busy::busy;
use super::{part, put, restart, Tried};
use crate::beside::Beside;
use crate::difference::Difference;
use reference::layout::{Areas, Pages};
use reference::log::is_empty_slot;
use reference::sizes::SLOT_BYTES;

/// Where a record's own number stands.
const OWN: std::ops::Range<usize> = 4..8;

struct Logs {
    beside: Beside,
    areas: Areas,
    records: Vec<Vec<u8>>,
}

impl Logs {
    fn new() -> Logs {
        let areas = busy().register.areas;
        let slots = areas.stable_log.chunks_exact(SLOT_BYTES).take_while(|slot| !is_empty_slot(slot));
        let records = slots.map(<[u8]>::to_vec).collect();
        Logs { beside: Beside::new(), areas, records }
    }

    /// Restart with these records in the stable log, as they are and numbered by place.
    fn try_records(&mut self, mut records: Vec<Vec<u8>>, what: &str) -> Result<(), Difference> {
        self.try_log(&records, what)?;
        for (record, number) in records.iter_mut().zip(1u32..) {
            record[OWN].copy_from_slice(&number.to_be_bytes());
        }
        self.try_log(&records, &format!("{what}, numbered by place"))
    }

    fn try_log(&mut self, records: &[Vec<u8>], what: &str) -> Result<(), Difference> {
        self.areas.stable_log.fill(0);
        for (place, record) in records.iter().enumerate() {
            put(&mut self.areas.stable_log, SLOT_BYTES, place, record);
        }
        restart(&mut self.beside, &self.areas, what).map(drop)
    }
}

pub fn swapped_records() -> Tried {
    let mut logs = Logs::new();
    for second in 0..logs.records.len() {
        for first in 0..second {
            let mut records = logs.records.clone();
            records.swap(first, second);
            logs.try_records(records, &format!("slots {first} and {second} swapped"))?;
        }
    }
    Ok(logs.beside.tally)
}

/// A record over another, beside itself with the later ones moved on, or left out with the later ones moved up.
pub fn repeated_records() -> Tried {
    let mut logs = Logs::new();
    for place in 0..logs.records.len() {
        let mut twice = logs.records.clone();
        twice.insert(place, twice[place].clone());
        logs.try_records(twice, &format!("slot {place} twice"))?;
        let mut without = logs.records.clone();
        without.remove(place);
        logs.try_records(without, &format!("slot {place} left out"))?;
        for over in 0..logs.records.len() {
            let mut records = logs.records.clone();
            records[over] = records[place].clone();
            logs.try_records(records, &format!("slot {place} also in slot {over}"))?;
        }
    }
    Ok(logs.beside.tally)
}

/// A record of which only the first bytes were stored, or only the last ones.
pub fn torn_records() -> Tried {
    let mut logs = Logs::new();
    for place in 0..logs.records.len() {
        for bytes in (4..SLOT_BYTES).step_by(4) {
            for torn in [0..bytes, bytes..SLOT_BYTES] {
                let mut records = logs.records.clone();
                records[place][torn.clone()].fill(0);
                logs.try_log(&records, &format!("slot {place} without its bytes {torn:?}"))?;
            }
        }
    }
    Ok(logs.beside.tally)
}

/// The log cut off after each record: with the pages as they are, some of which are then ahead of it; and with pages that
/// were never written out, so that every first part of the log is redone.
pub fn truncated_logs() -> Tried {
    let mut logs = Logs::new();
    let formatted = Pages::formatted(logs.areas.page_count()).bytes();
    let stored = std::mem::replace(&mut logs.areas.stable_pages, formatted.clone());
    for kept in 0..=logs.records.len() {
        let records = logs.records[..kept].to_vec();
        logs.areas.stable_pages.copy_from_slice(&stored);
        logs.try_log(&records, &format!("{kept} records kept"))?;
        logs.areas.stable_pages.copy_from_slice(&formatted);
        logs.try_log(&records, &format!("{kept} records kept, over pages never written out"))?;
        let slot = part(&logs.areas.stable_log, SLOT_BYTES, kept.saturating_sub(1));
        put(&mut logs.areas.stable_log, SLOT_BYTES, kept + 1, &slot);
        restart(&mut logs.beside, &logs.areas, format!("a full slot after an empty one, {kept} records kept"))?;
    }
    Ok(logs.beside.tally)
}
