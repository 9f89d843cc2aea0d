//! Turned bits: every single one of a stored image, for restart; those of the desk and of all areas, for the other calls.

use super::busy::{busy, roomy, Busy};
use super::Tried;
use crate::beside::Beside;
use crate::difference::{Difference, AREAS};
use reference::calls::Call;
use reference::layout::{Areas, Desk};
use reference::sizes::DESK_BYTES;

/// Every bit of the stable pages and the stable log.
pub fn bits_of_the_image() -> Tried {
    let mut beside = Beside::new();
    let mut areas = busy().register.areas;
    for area in [1, 3] {
        for bit in 0..8 * areas.each()[area].len() {
            try_bit(&mut beside, &mut areas, &Desk::empty(), area, bit, Call::Restart)?;
        }
    }
    Ok(beside.tally)
}

/// Every fifth bit of each area, the calls in turn. Five has no part in common with 8, so each place in a byte gets its turn.
pub fn bits_for_other_calls() -> Tried {
    let mut beside = Beside::new();
    let busy = roomy();
    let calls = sound_calls(&busy);
    let mut areas = busy.register.areas;
    for area in 0..AREAS.len() {
        for (turn, bit) in (0..8 * areas.each()[area].len()).step_by(5).enumerate() {
            try_bit(&mut beside, &mut areas, &busy.register.desk, area, bit, calls[turn % calls.len()])?;
        }
    }
    Ok(beside.tally)
}

/// Every bit of the desk, for every call that looks at it.
pub fn bits_of_the_desk() -> Tried {
    let mut beside = Beside::new();
    let busy = roomy();
    let calls = sound_calls(&busy);
    for bit in 0..8 * DESK_BYTES {
        let mut bytes = busy.register.desk.bytes();
        bytes[bit / 8] ^= 0x80 >> (bit % 8);
        for made in &calls {
            let tried = beside.try_on(&busy.register.areas, &Desk::read(&bytes), *made);
            tried.map_err(|difference| difference.at(format!("{made:?} with bit {bit} of the desk turned")))?;
        }
    }
    Ok(beside.tally)
}

/// Turn one bit, counted from the most significant one of the first byte; make the call; turn it back.
pub fn try_bit(
    beside: &mut Beside,
    areas: &mut Areas,
    desk: &Desk,
    area: usize,
    bit: usize,
    made: Call,
) -> Result<(), Difference> {
    let turn = |areas: &mut Areas| areas.each_mut()[area][bit / 8] ^= 0x80 >> (bit % 8);
    turn(areas);
    let tried = beside.try_on(areas, desk, made);
    turn(areas);
    let what = || format!("{made:?} with bit {bit} of the {} turned", AREAS[area].0);
    tried.map(drop).map_err(|difference| difference.at(what()))
}

/// The calls that ask for sound areas, with numbers for which the register, undamaged, does them: slides 70 and 80 are filed, 75
/// is not, and there is room for one update more.
pub fn sound_calls(busy: &Busy) -> [Call; 11] {
    let (batch, other) = (busy.first, busy.second);
    let calls = [
        Call::Begin,
        Call::Fetch { batch, key: 70 },
        Call::Next { batch: other, key: 70 },
        Call::Previous { batch: other, key: 80 },
        Call::Insert { batch, key: 75, value: 1 },
        Call::Delete { batch: other, key: 80 },
        Call::Commit { batch },
        Call::Abort { batch: other },
        Call::Mark { batch },
        Call::Return { batch: other, mark: other },
        Call::WriteOut { page: 1 },
    ];
    let refused = calls.iter().find(|call| busy.register.outcome_of(**call).answer.is_err());
    assert!(refused.is_none(), "{refused:?} is refused without damage");
    calls
}
