//! Wrong lengths: of one area, of both of a kind, of the desk and of the room for the answer's values.

use super::busy::{roomy, Busy};
use super::Tried;
use crate::beside::Beside;
use crate::difference::{Difference, AREAS};
use crate::library;
use crate::loan::{Loan, UNWRITTEN, VALUES_BYTES};
use reference::calls::{Call, Columns};
use reference::sizes::{DESK_BYTES, FEWEST_PAGES, FEWEST_SLOTS, MOST_PAGES, MOST_SLOTS};
use std::array::from_fn;

/// Every call, with numbers for which the register does it.
fn every_call(busy: &Busy) -> Vec<Call> {
    let mut calls = super::bits::sound_calls(busy).to_vec();
    let columns = Columns::of_records((1..=20).map(|key| (key, key)));
    calls.extend([Call::Format, Call::Load { columns }, Call::Restart]);
    calls
}

/// One area longer or shorter by a byte or a page or slot, or both of a kind at the ends of what is allowed and beyond.
pub fn lengths_of_areas() -> Tried {
    let mut beside = Beside::new();
    let busy = roomy();
    let of_kind = [(0, FEWEST_PAGES, MOST_PAGES), (2, FEWEST_SLOTS, MOST_SLOTS)];
    let mut tried: Vec<(Vec<usize>, usize)> = Vec::new();
    for (area, (_, _, unit)) in AREAS.iter().enumerate() {
        let length = busy.register.areas.each()[area].len();
        tried.extend([0, length - 1, length + 1, length - unit, length + unit].map(|length| (vec![area], length)));
    }
    for (area, fewest, most) in of_kind {
        let unit = AREAS[area].2;
        let lengths =
            [0, unit * (fewest - 1), unit * fewest, unit * fewest + 1, unit * most - 1, unit * most, unit * (most + 1)];
        tried.extend(lengths.map(|length| (vec![area, area + 1], length)));
    }
    for (lent, length) in tried {
        let mut areas = busy.register.areas.clone();
        lent.iter().for_each(|area| areas.each_mut()[*area].resize(length, 0));
        for made in every_call(&busy) {
            let what = || format!("{made:?} with areas {lent:?} of {length} bytes");
            beside.try_on(&areas, &busy.register.desk, made).map_err(|difference| difference.at(what()))?;
        }
    }
    Ok(beside.tally)
}

/// A desk of other than 136 bytes, or values of other than 8: 1, and the other of the two is left as by any refusal.
pub fn lengths_of_desk_and_values() -> Tried {
    const LENGTHS: [(usize, usize); 10] =
        [(0, 8), (1, 8), (135, 8), (137, 8), (272, 8), (136, 0), (136, 7), (136, 9), (136, 16), (0, 0)];
    let mut beside = Beside::new();
    let busy = roomy();
    for (desk, values) in LENGTHS {
        for made in every_call(&busy) {
            beside.loan.set(&busy.register.areas, &busy.register.desk);
            let mut bytes = busy.register.desk.bytes().to_vec();
            bytes.resize(desk, UNWRITTEN);
            beside.loan.desk.set(&bytes);
            beside.loan.values.set(&vec![UNWRITTEN; values]);
            let what = || format!("{made:?} with a desk of {desk} bytes and values of {values}");
            changes_what_it_may(&mut beside, made).map_err(|difference| difference.at(what()))?;
        }
    }
    Ok(beside.tally)
}

/// The call answers 1 and leaves every byte, but that values of 8 bytes are zeros, and so is a desk of 136 bytes after format, load and restart.
/// The model has no such lengths: its desk is a value, and so is its answer.
fn changes_what_it_may(beside: &mut Beside, made: Call) -> Result<(), Difference> {
    let mut expected = contents(&beside.loan);
    let [.., desk, values] = &mut expected;
    if desk.len() == DESK_BYTES && made.starts_anew() {
        desk.fill(0);
    }
    if values.len() == VALUES_BYTES {
        values.fill(0);
    }
    let (reason, stack) = library::call(&mut beside.loan, made);
    beside.tally.count(made, reason, stack);
    if reason != 1 {
        return Err(Difference::new(format!("{reason} by the library, and not 1")));
    }
    if contents(&beside.loan) != expected || !beside.loan.guards_hold() {
        return Err(Difference::new("the library changes something that it may not, or not what it must"));
    }
    Ok(())
}

/// What stands in the four areas, the desk and the values.
fn contents(loan: &Loan) -> [Vec<u8>; 6] {
    let mut lent = loan.areas.iter().chain([&loan.desk, &loan.values]);
    from_fn(|_| lent.next().map(|lent| lent.to_vec()).unwrap_or_default())
}
