//! What documents 01 and 02 say of any call's answer, whatever the model says: its refusal is on the call's list, and a refusal
//! gives zeros and leaves what is written down.

use crate::difference::{Difference, AREAS};
use crate::loan::Loan;
use reference::calls::Call;
use reference::layout::{Areas, Desk};

/// The reasons for which a call is refused.
pub fn reasons(made: Call) -> &'static [u32] {
    match made {
        Call::Format => &[1],
        Call::Load { .. } => &[1, 7, 8, 9, 18],
        Call::Begin => &[1, 11, 13, 17],
        Call::Fetch { .. } | Call::Next { .. } | Call::Previous { .. } => &[1, 11, 12, 14, 16],
        Call::Insert { .. } => &[1, 7, 11, 12, 14, 15, 17, 18],
        Call::Delete { .. } => &[1, 11, 12, 14, 16, 17, 18],
        Call::Commit { .. } | Call::Mark { .. } => &[1, 11, 12],
        Call::Abort { .. } => &[1, 11, 12, 19],
        Call::Return { .. } => &[1, 11, 12, 19, 20],
        Call::WriteOut { .. } => &[1, 2, 11],
        Call::Restart => &[1, 3, 4, 5, 6, 17, 18],
    }
}

/// Judge a call that returned `reason`, by what was lent before it and what it left.
pub fn check(made: Call, reason: u32, areas: &Areas, desk: &Desk, left: &Loan) -> Result<(), Difference> {
    if reason == 0 {
        return Ok(());
    }
    if !reasons(made).contains(&reason) {
        return Err(Difference::new(format!("{reason} is not on the call's list")));
    }
    if left.value(0) != 0 || left.value(1) != 0 {
        return Err(Difference::new("a refusal gives values"));
    }
    check_areas(made, reason, areas, left)?;
    let wanted = if made.starts_anew() { Desk::empty() } else { *desk };
    if *left.desk != wanted.bytes() {
        return Err(Difference::new("a refusal leaves another desk than is written"));
    }
    Ok(())
}

/// "A refusal changes nothing, except that restart's 3 to 18 zero the working areas."
fn check_areas(made: Call, reason: u32, areas: &Areas, left: &Loan) -> Result<(), Difference> {
    let zeroed = made == Call::Restart && reason >= 3;
    for (place, (before, after)) in areas.each().into_iter().zip(&left.areas).enumerate() {
        let is_working = place % 2 == 0;
        let kept = if zeroed && is_working { after.iter().all(|byte| *byte == 0) } else { before[..] == after[..] };
        if !kept {
            return Err(Difference::new(format!("a refusal changes the {}", AREAS[place].0)));
        }
    }
    Ok(())
}
