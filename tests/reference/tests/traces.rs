//! The random traces are the same for the same seed, are read back as they are printed, and meet what they are for.

mod common;

use common::each_event;
use reference::bench::{damaged_trace, run, trace, Command, Event, Instrument, Shape};
use reference::calls::{redo_alone, sound, Call, Columns};
use reference::layout::{Entry, Kind, Page, Record, Store};
use reference::sizes::{ROOT, SLOT_BYTES};
use reference::tree::pages_for;
use std::collections::BTreeSet;

#[test]
fn the_same_seed_gives_the_same_trace() {
    assert_eq!(trace(7, 200), trace(7, 200));
    assert_ne!(trace(7, 200), trace(8, 200));
}

#[test]
fn a_printed_command_is_read_back() {
    for command in trace(9, 1000).into_iter().chain(damaged_trace(9, 200)) {
        assert_eq!(Command::read(command.to_string().as_bytes()), Some(command));
    }
}

/// What an event was, in words.
fn features(before: &Instrument, event: &Event, after: &Instrument) -> Vec<String> {
    let mut features = Vec::new();
    let name = format!("{:?}", event.call);
    let name = name.split(' ').next().unwrap_or_default();
    match event.answer {
        Err(refusal) if !event.was_cut => features.push(format!("{name} refused {}", refusal.number())),
        Ok(_) if event.was_cut => features.push(format!("{name} cut")),
        _ => {}
    }
    if event.was_cut && event.carried_out > 0 {
        let last = before.outcome_of(event.call).stores.swap_remove(event.carried_out - 1);
        features.push(format!("cut after {}", store_kind(&last)));
    } else if event.answer.is_ok() {
        features.extend(new_records(before, after));
    }
    features
}

fn store_kind(store: &Store) -> String {
    match store {
        Store::Page { bytes, .. } => format!("{:?} page", Page::read(bytes).kind),
        Store::Slot { bytes, .. } => {
            Record::read(bytes).map_or("empty slot".to_string(), |record| format!("{:?}", record.kind))
        }
    }
}

/// The tree changes that a call wrote, with the level where the record or its page says it.
fn new_records(before: &Instrument, after: &Instrument) -> Vec<String> {
    let writes = before.desk.written != after.desk.written;
    let Some(sound) = writes.then(|| sound(&after.areas, &after.desk)).flatten() else {
        return Vec::new();
    };
    let new = sound.work.log.records.iter().skip(before.desk.written as usize).collect::<Vec<_>>();
    let linked_first = (0..new.len()).filter_map(|place| linked_before_a_join(&new[place..])).map(String::from);
    let describe = |record: &Record| match record.kind {
        Kind::Split | Kind::Raise | Kind::Lower => format!("{:?} at level {}", record.kind, record.level),
        Kind::Redistribute => {
            let to = if record.entries[0].key <= record.key { "left" } else { "right" };
            format!("Redistribute to the {to} at level {}", sound.work.page(record.a).level)
        }
        kind => format!("{kind:?} at level {}", sound.work.page(record.a).level),
    };
    let tree_changes = new.iter().filter(|record| record.kind >= Kind::Split);
    tree_changes.map(|record| describe(record)).chain(linked_first).collect()
}

/// Step 3's links: of an indirect page after the right neighbour, which is then unlinked, or of a left neighbour that is
/// indirect itself, and then covers less than the key of the update.
fn linked_before_a_join(records: &[&Record]) -> Option<&'static str> {
    let (link, unlink) = (records.first()?, records.get(1)?);
    if link.kind != Kind::Link || unlink.kind != Kind::Unlink || link.a != unlink.a {
        return None;
    }
    let update = records.iter().find(|record| record.kind < Kind::Split)?;
    if unlink.c == link.b {
        Some("link after the right neighbour")
    } else if unlink.b == link.c && update.key > unlink.key {
        Some("link of the left neighbour")
    } else {
        None
    }
}

/// What the traces are for. Restart's 5 and 6 need damage, and its 18 and the 19 of abort and return an image past the
/// reserves.
const WANTED: [&str; 87] = [
    "link after the right neighbour",
    "link of the left neighbour",
    "Split at level 0",
    "Split at level 1",
    "Link at level 1",
    "Link at level 2",
    "Unlink at level 1",
    "Unlink at level 2",
    "Merge at level 0",
    "Merge at level 1",
    "Redistribute to the left at level 0",
    "Redistribute to the right at level 0",
    "Raise at level 0",
    "Raise at level 1",
    "Lower at level 0",
    "Lower at level 1",
    "Format refused 1",
    "Load refused 1",
    "Load refused 7",
    "Load refused 8",
    "Load refused 9",
    "Load refused 18",
    "Load cut",
    "Begin refused 11",
    "Begin refused 13",
    "Begin refused 17",
    "Fetch refused 11",
    "Fetch refused 12",
    "Fetch refused 14",
    "Fetch refused 16",
    "Next refused 11",
    "Next refused 12",
    "Next refused 14",
    "Next refused 16",
    "Previous refused 11",
    "Previous refused 12",
    "Previous refused 14",
    "Previous refused 16",
    "Insert refused 7",
    "Insert refused 11",
    "Insert refused 12",
    "Insert refused 14",
    "Insert refused 15",
    "Insert refused 17",
    "Insert refused 18",
    "Delete refused 11",
    "Delete refused 12",
    "Delete refused 14",
    "Delete refused 16",
    "Delete refused 17",
    "Delete refused 18",
    "Commit refused 11",
    "Commit refused 12",
    "Abort refused 11",
    "Abort refused 12",
    "Mark refused 11",
    "Mark refused 12",
    "Return refused 11",
    "Return refused 12",
    "Return refused 20",
    "WriteOut refused 2",
    "WriteOut refused 11",
    "Restart refused 3",
    "Abort cut",
    "Commit cut",
    "Format cut",
    "Insert cut",
    "Mark cut",
    "Previous cut",
    "Restart cut",
    "Return cut",
    "WriteOut cut",
    "cut after Begin",
    "cut after Insert",
    "cut after Delete",
    "cut after UndoInsert",
    "cut after UndoDelete",
    "cut after Commit",
    "cut after AbortMark",
    "cut after End",
    "cut after Split",
    "cut after Link",
    "cut after Unlink",
    "cut after Leaf page",
    "cut after Index page",
    "cut after Map page",
    "cut after Free page",
];

#[test]
fn the_traces_meet_each_tree_change_each_refusal_and_each_kind_of_cut() {
    let mut met = BTreeSet::new();
    for seed in 1..=16 {
        each_event(&run(Shape::Plain, seed, 2000), |before, event, after| met.extend(features(before, event, after)));
    }
    let missed: Vec<&str> = WANTED.into_iter().filter(|feature| !met.contains(*feature)).collect();
    assert!(missed.is_empty(), "the traces never meet {missed:?}");
}

/// What a return met, in words.
fn of_return(before: &Instrument, event: &Event, after: &Instrument) -> Option<&'static str> {
    let Call::Return { batch, mark } = event.call else {
        return None;
    };
    let work = sound(&before.areas, &before.desk).filter(|_| !event.was_cut)?.work;
    let open = work.open.find(batch)?;
    let record = work.log.records.iter().find(|record| record.own == mark);
    if event.answer.is_err() {
        return Some(match record {
            None if mark == 0 => "20 for 0",
            None => "20 beyond the log",
            Some(record) if record.batch == 0 => "20 for a tree change",
            Some(record) if work.open.find(record.batch).is_some() => "20 for another open batch's record",
            Some(_) => "20 for an ended batch's record",
        });
    }
    let stale = record.is_some_and(|record| match record.kind {
        Kind::Insert | Kind::Delete => !open.pending.iter().any(|update| update.number == mark),
        kind => kind != Kind::Begin,
    });
    let above = open.pending.iter().filter(|update| update.number > mark).count();
    Some(match (above, open.pending.len() - above) {
        (0, _) => "nothing above",
        _ if stale => "to a stale mark",
        (_, 0) => "to the begin of all",
        _ if after.desk.written - before.desk.written > above as u32 => "a part, with changes of the tree",
        _ => "a part",
    })
}

/// A key that a batch has freed by a return is taken by another, while the first is still open.
#[derive(Default)]
struct Freed {
    /// The batch and key of each update that a return took back.
    keys: BTreeSet<(u32, u32)>,
    taken: usize,
}

impl Freed {
    fn follow(&mut self, before: &Instrument, event: &Event, after: &Instrument) {
        let pending = |of: &Instrument, batch: u32| -> BTreeSet<(u32, u32)> {
            let open = sound(&of.areas, &of.desk).and_then(|sound| sound.work.open.find(batch).cloned());
            open.iter().flat_map(|open| &open.pending).map(|update| (batch, update.key)).collect()
        };
        match (event.call, event.finished()) {
            (Call::Return { batch, .. }, Some(_)) => {
                self.keys.extend(pending(before, batch).difference(&pending(after, batch)));
            }
            (Call::Insert { batch, key, .. } | Call::Delete { batch, key }, Some(_)) => {
                let by_other = |freed: &&(u32, u32)| freed.1 == key && freed.0 != batch;
                self.taken += self.keys.iter().filter(by_other).count();
            }
            (Call::Commit { batch } | Call::Abort { batch }, Some(_)) => self.keys.retain(|(of, _)| *of != batch),
            (made, _) if made.starts_anew() => self.keys.clear(),
            _ => {}
        }
    }
}

#[test]
fn the_traces_meet_what_returns_are_for() {
    let mut met = BTreeSet::new();
    let mut taken = 0;
    for seed in 21..=32 {
        let mut freed = Freed::default();
        each_event(&run(Shape::Plain, seed, 1000), |before, event, after| {
            met.extend(of_return(before, event, after));
            freed.follow(before, event, after);
        });
        taken += freed.taken;
    }
    let wanted = [
        "20 for 0",
        "20 beyond the log",
        "20 for a tree change",
        "20 for another open batch's record",
        "20 for an ended batch's record",
        "nothing above",
        "to a stale mark",
        "to the begin of all",
        "a part",
        "a part, with changes of the tree",
    ];
    let missed: Vec<&str> = wanted.into_iter().filter(|feature| !met.contains(*feature)).collect();
    assert!(missed.is_empty(), "never met: {missed:?}");
    assert!(taken > 5, "{taken} keys that a return has freed are taken by another batch");
}

/// What a finished or refused load was, in words.
fn of_load(event: &Event, after: &Instrument) -> Vec<String> {
    let Call::Load { columns: Columns { keys, values } } = event.call else {
        return Vec::new();
    };
    if event.was_cut {
        return Vec::new();
    }
    let Err(refusal) = event.answer else {
        let pages = sound(&after.areas, &after.desk).expect("sound").work.pages;
        let full = (pages.free_count() == 0).then(|| "no page left".to_string());
        return [format!("{} levels", pages.list[ROOT].level + 1), format!("{} records", keys.len())]
            .into_iter()
            .chain(full)
            .collect();
    };
    let rest = [
        ("zero", keys.contains(&0)),
        ("order", keys.windows(2).any(|pair| pair[0] >= pair[1])),
        ("pages", pages_for(&vec![Entry::new(0, 0); keys.len()], after.areas.page_count()).is_none()),
    ];
    let besides: Vec<&str> = rest.iter().filter(|(_, broken)| *broken).map(|(name, _)| *name).collect();
    let first = if keys.len() == values.len() { refusal.number().to_string() } else { format!("{refusal:?}") };
    besides.iter().map(|reason| format!("{first} and {reason}")).collect()
}

#[test]
fn the_traces_meet_what_loads_are_for() {
    let mut met = BTreeSet::new();
    for seed in 41..=140 {
        each_event(&run(Shape::Plain, seed, 300), |_, event, after| met.extend(of_load(event, after)));
    }
    let sizes = [0, 1, 14, 15, 20, 21, 23, 24, 140, 141, 143, 144].map(|size| format!("{size} records"));
    let wanted = [
        "1 levels",
        "2 levels",
        "3 levels",
        "4 levels",
        "no page left",
        "ColumnsDiffer and zero",
        "ColumnsDiffer and order",
        "ColumnsDiffer and pages",
        "7 and order",
        "7 and pages",
        "9 and pages",
    ];
    let wanted = wanted.into_iter().map(String::from).chain(sizes);
    let missed: Vec<String> = wanted.filter(|feature| !met.contains(feature)).collect();
    assert!(missed.is_empty(), "never met: {missed:?}");
}

#[test]
fn the_damaged_traces_meet_restarts_reasons_and_go_on() {
    let mut met = BTreeSet::new();
    for seed in 1..=4 {
        each_event(&run(Shape::Damaged, seed, 800), |before, event, after| met.extend(features(before, event, after)));
    }
    let wanted = [3, 4, 5, 6].map(|number| format!("Restart refused {number}"));
    assert!(wanted.iter().all(|feature| met.contains(feature)), "{met:?}");
}

#[test]
fn a_crowded_trace_has_eight_open_batches_with_something_pending() {
    let mut most = 0;
    each_event(&run(Shape::Crowded, 1, 1000), |_, _, after| {
        most = most.max(after.desk.rows.iter().filter(|row| row.pending > 0).count());
    });
    assert_eq!(most, 8);
}

#[test]
fn the_largest_run_starts_from_a_sound_register_with_most_slots_used() {
    let Instrument { areas, desk, .. } = run(Shape::Largest, 1, 1).start;
    let sound = sound(&areas, &desk).expect("sound");
    assert!(areas.page_count() == 896 && areas.slot_count() == 16_384 && desk.written > 14_000);
    assert!(sound.work.page(1).level >= 3 && sound.work.pages.free_count() < 200);
}

/// What an event had to do with key 0, in words.
fn with_key_0(event: &Event, before: &Instrument, after: &Instrument) -> Vec<String> {
    let undone = new_of_key_0(before, after).into_iter().map(|kind| format!("{kind:?}"));
    let name = match event.call {
        Call::Fetch { key: 0, .. } => "fetch",
        // Nothing but slide 0 is below.
        Call::Previous { key: 1, .. } => "previous",
        Call::Delete { key: 0, .. } => "delete",
        Call::Insert { key: 0, .. } => "insert",
        _ => return undone.collect(),
    };
    let answer = event.answer.map_or_else(|refusal| refusal.number(), |_| 0);
    undone.chain([format!("{name} {answer}")]).collect()
}

/// The kinds of the records of key 0 that an event wrote, where it is seen.
fn new_of_key_0(before: &Instrument, after: &Instrument) -> Vec<Kind> {
    let written = before.areas.stable_log.chunks_exact(SLOT_BYTES).zip(after.areas.stable_log.chunks_exact(SLOT_BYTES));
    let new = written.filter(|(before, after)| before != after).filter_map(|(_, after)| Record::read(after));
    new.filter(|record| record.key == 0 && record.kind < Kind::Commit && record.kind > Kind::Begin)
        .map(|record| record.kind)
        .collect()
}

#[test]
fn the_runs_from_the_field_start_with_slide_0_and_meet_what_is_done_to_it() {
    let mut met = BTreeSet::new();
    let mut filed = 0;
    for seed in 1..=60 {
        let run = run(Shape::Field, seed, 200);
        assert!(redo_alone(&run.start.areas).is_ok(), "a whole image");
        filed += usize::from(run.book.as_ref().is_some_and(|book| book.slides.contains_key(&0)));
        each_event(&run, |before, event, after| met.extend(with_key_0(event, before, after)));
    }
    assert!(filed >= 10, "{filed} of 60 have slide 0 filed");
    let wanted = [
        "fetch 0",
        "fetch 14",
        "fetch 16",
        "previous 0",
        "previous 14",
        "previous 16",
        "delete 0",
        "delete 14",
        "delete 16",
        "insert 7",
        "Delete",
        "UndoInsert",
        "UndoDelete",
    ];
    let missed: Vec<&str> = wanted.into_iter().filter(|feature| !met.contains(*feature)).collect();
    assert!(missed.is_empty(), "never met: {missed:?}");
    assert!(!met.contains("Insert") && !met.contains("insert 0"), "{met:?}");
}
