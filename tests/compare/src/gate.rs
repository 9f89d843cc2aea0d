//! The fixed checks: every one by the same seeds each time, so that what fails once fails again.

use crate::damage;
use crate::difference::Difference;
use crate::edges;
use crate::machine;
use crate::tally::Tally;
use crate::traces::{compare_run, Seen};
use reference::bench::Shape;
use reference::calls::{Call, Columns};
use std::io::Write;
use std::ops::Range;

/// Runs of a shape: its seeds, and how many calls each has.
struct Runs {
    what: &'static str,
    shape: Shape,
    seeds: Range<u64>,
    calls: usize,
}

const RUNS: [Runs; 6] = [
    Runs { what: "plain runs, cut after every store", shape: Shape::Plain, seeds: 1..21, calls: 1500 },
    Runs { what: "runs with damage in between", shape: Shape::Damaged, seeds: 1..9, calls: 1500 },
    Runs { what: "runs with eight batches open", shape: Shape::Crowded, seeds: 1..7, calls: 1500 },
    Runs { what: "runs at the largest size", shape: Shape::Largest, seeds: 1..4, calls: 150 },
    Runs { what: "runs where the room just suffices", shape: Shape::Edge, seeds: 1..31, calls: 600 },
    Runs { what: "runs from images that hold key 0", shape: Shape::Field, seeds: 1..41, calls: 200 },
];

type Try = (&'static str, fn() -> damage::Tried);

const TRIES: [Try; 32] = [
    ("every bit of a stored image turned", damage::bits_of_the_image),
    ("bits of all areas turned, for the other calls", damage::bits_for_other_calls),
    ("every bit of the desk turned", damage::bits_of_the_desk),
    ("records swapped", damage::swapped_records),
    ("records repeated and left out", damage::repeated_records),
    ("records stored in part", damage::torn_records),
    ("logs cut off", damage::truncated_logs),
    ("stale pages", damage::stale_pages),
    ("pages of mixed ages", damage::mixed_pages),
    ("pages at wrong places, and stored in part", damage::pages_at_wrong_places),
    ("areas of wrong lengths", damage::lengths_of_areas),
    ("a desk or values of a wrong length", damage::lengths_of_desk_and_values),
    ("areas, desks and numbers of any kind", damage::anything),
    ("forged images", damage::forged_images),
    ("registers with changes redone and nothing undone", damage::redone_registers),
    ("images past the reserves", damage::shortage),
    ("every bit around each page change turned", damage::bits_around_changes),
    ("each page change forged", damage::forged_around_changes),
    ("entries out of order around each page change", damage::permuted_around_changes),
    ("small registers out of order", damage::unsorted_registers),
    ("registers written without the calls' care", damage::careless_registers),
    ("a tree of five levels", edges::risen_tree),
    ("trees of one to six levels", edges::built_trees),
    ("the most updates pending", edges::most_pending),
    ("exact room in the log", edges::exact_slots),
    ("exact room in the pages", edges::exact_pages),
    ("the largest redo", edges::largest_redo),
    ("inserts of key 0, and slide 0 from the field", edges::key_0),
    ("marks, and returns to them", edges::marks),
    ("loads of every shape, and refused ones", edges::loads),
    ("steps backwards, and left links", edges::backwards),
    ("two registers in two threads", edges::two_threads),
];

struct Gate<'a> {
    /// Only checks whose name has these words are made.
    words: &'a str,
    passed: usize,
    failed: usize,
    tally: Tally,
}

/// Make every check whose name has these words. True if there are some, and none failed.
pub fn gate(words: &str) -> bool {
    let mut gate = Gate { words, passed: 0, failed: 0, tally: Tally::default() };
    for runs in &RUNS {
        gate.check(runs.what, |_| compare_runs(runs));
    }
    for (what, tried) in TRIES {
        gate.check(what, |_| tried().map(|tally| (format!("{} calls", tally.calls()), tally)));
    }
    gate.check("every answer on the list is met", Gate::every_answer_was_met);
    println!("deepest stack of each call, in bytes: {}", gate.tally.deepest());
    println!("{} passed, {} failed", gate.passed, gate.failed);
    gate.passed > 0 && gate.failed == 0
}

/// What a check saw, in words, and the answers that it met.
type Checked = Result<(String, Tally), Difference>;

fn compare_runs(runs: &Runs) -> Checked {
    let mut seen = Seen::default();
    for seed in runs.seeds.clone() {
        seen.add(&compare_run(runs.shape, seed, runs.calls)?);
    }
    Ok((seen.to_string(), seen.tally))
}

impl Gate<'_> {
    fn check(&mut self, what: &str, check: impl FnOnce(&Self) -> Checked) {
        if !what.contains(self.words) {
            return;
        }
        machine::doing(what);
        match check(self) {
            Ok((seen, tally)) => {
                println!("ok: {what}: {seen}");
                self.tally.add(&tally);
                self.passed += 1;
            }
            Err(difference) => {
                println!("FAILED: {what}: {difference}");
                self.failed += 1;
            }
        }
        // Where the library ends the program, what was said before must be there.
        let _ = std::io::stdout().flush();
    }

    /// A check that never met an answer has not compared it.
    fn every_answer_was_met(&self) -> Checked {
        let (batch, key, value, mark, page) = (0, 0, 0, 0, 0);
        let calls = [
            Call::Format,
            Call::Load { columns: Columns::NONE },
            Call::Begin,
            Call::Fetch { batch, key },
            Call::Next { batch, key },
            Call::Previous { batch, key },
            Call::Insert { batch, key, value },
            Call::Delete { batch, key },
            Call::Commit { batch },
            Call::Abort { batch },
            Call::Mark { batch },
            Call::Return { batch, mark },
            Call::WriteOut { page },
            Call::Restart,
        ];
        let missed = self.tally.missed(&calls);
        if missed.is_empty() {
            return Ok((self.tally.to_string(), Tally::default()));
        }
        Err(Difference::new(format!("never met: {missed:?}")))
    }
}
