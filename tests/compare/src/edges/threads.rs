//! Two registers in two threads, whose calls run at the same time: the library keeps nothing beside its arguments. One call
//! is held up in its midst, where it reads the log, while the other runs from its begin to its end.

use super::written::{begin, commit, insert, register};
use crate::beside::Beside;
use crate::damage::Tried;
use crate::difference::Difference;
use crate::machine;
use reference::calls::{call, Call, Outcome};
use reference::layout::{Areas, Desk};
use reference::log::Work;
use reference::sizes::SLOT_BYTES;

/// Of the four areas.
const WORKING_LOG: usize = 2;
const STABLE_LOG: usize = 3;

struct Prepared {
    areas: Areas,
    desk: Desk,
    outcomes: Vec<(Call, Outcome)>,
}

/// A register of this thread's own slides and number of cases, with a batch open, and what each call gives on it.
fn prepared(thread: u32) -> Prepared {
    let mut work = Work::formatted(200, 3000);
    for number in 0..60 + thread {
        let filed = begin(&mut work);
        (0..12).for_each(|slide| insert(&mut work, filed, 1000 * number + 17 * slide + thread));
        commit(&mut work, filed);
    }
    let batch = begin(&mut work);
    insert(&mut work, batch, 500 + thread);
    let (areas, desk) = register(&work, &work.pages);
    let key = 5000 + thread;
    let calls = [
        Call::Begin,
        Call::Fetch { batch, key },
        Call::Next { batch, key },
        Call::Previous { batch, key },
        Call::Insert { batch, key: key + 3, value: thread },
        Call::Delete { batch, key },
        Call::Commit { batch },
        Call::Abort { batch },
        Call::Mark { batch },
        Call::Return { batch, mark: batch },
        Call::WriteOut { page: 1 + thread },
        Call::Restart,
    ];
    let outcomes = calls.map(|made| (made, call(&areas, &desk, made))).to_vec();
    Prepared { areas, desk, outcomes }
}

pub fn two_threads() -> Tried {
    let registers = [prepared(1), prepared(2)];
    let mut besides = [Beside::new(), Beside::new()];
    for held in &registers[0].outcomes {
        for other in &registers[1].outcomes {
            let what = || format!("{:?} while {:?} runs on another register", held.0, other.0);
            both(&registers, &mut besides, held, other).map_err(|difference| difference.at(what()))?;
        }
    }
    let [mut first, second] = besides;
    first.tally.add(&second.tally);
    Ok(first.tally)
}

/// The first register's call in this thread, and in its midst the second register's in another.
fn both(
    registers: &[Prepared; 2],
    [first, second]: &mut [Beside; 2],
    held: &(Call, Outcome),
    other: &(Call, Outcome),
) -> Result<(), Difference> {
    first.loan.set(&registers[0].areas, &registers[0].desk);
    second.loan.set(&registers[1].areas, &registers[1].desk);
    let log = if held.0 == Call::Restart { STABLE_LOG } else { WORKING_LOG };
    let records = registers[0].desk.written as usize;
    first.loan.areas[log].hold_at(records / 2 * SLOT_BYTES);
    let (mine, others, was_held) = std::thread::scope(|scope| {
        let thread = scope.spawn(|| {
            machine::wait_for_held();
            let found = second.check(&registers[1].areas, &registers[1].desk, other.0, &other.1);
            machine::let_go_on();
            found
        });
        let mine = first.make(held.0);
        let was_held = machine::was_held();
        (mine, thread.join().expect("the thread ends"), was_held)
    });
    first.judge(&registers[0].areas, &registers[0].desk, held.0, mine, &held.1)?;
    others.map_err(|difference| difference.at("the other one"))?;
    if was_held {
        Ok(())
    } else {
        Err(Difference::new("the call never read the midst of the log, and so was not held up"))
    }
}
