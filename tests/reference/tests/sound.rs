//! Each part of "sound", broken by itself in a sound register, is seen; and the pending rule. Left links: `backwards.rs`.

use reference::bench::Instrument;
use reference::calls::{sound, Call};
use reference::layout::{Areas, Desk, Entry, Kind, Record};
use reference::log::{obeys_pending_rule, OpenBatches, Work};
use reference::sizes::{DESK_NUMBERS, SLOT_BYTES};

const PAGES: usize = 64;
const SLOTS: usize = 320;

/// Five slides committed, one page written out, and two batches with something pending, in part stored.
fn register() -> Instrument {
    let mut instrument = Instrument::lent(PAGES, SLOTS);
    let insert = |batch, key| Call::Insert { batch, key, value: 7 };
    let calls = [
        vec![Call::Format, Call::Begin],
        [10, 20, 30, 40, 50].map(|key| insert(1, key)).to_vec(),
        vec![Call::Commit { batch: 1 }, Call::Begin, Call::Begin, insert(8, 15), Call::WriteOut { page: 1 }],
        vec![Call::Delete { batch: 9, key: 30 }],
    ];
    for call in calls.concat() {
        assert!(instrument.make(call).answer.is_ok(), "{call:?}");
    }
    instrument
}

fn is_sound(instrument: &Instrument) -> bool {
    sound(&instrument.areas, &instrument.desk).is_some()
}

fn is_sound_after(change: impl FnOnce(&mut Instrument)) -> bool {
    let mut instrument = register();
    change(&mut instrument);
    is_sound(&instrument)
}

#[test]
fn the_desk_is_what_the_working_log_says() {
    assert!(is_sound_after(|_| {}));
    for place in 0..DESK_NUMBERS {
        for other in [0, 1, 11, u32::MAX] {
            let mut numbers = register().desk.numbers();
            let same = numbers[place] == other;
            numbers[place] = other;
            assert_eq!(is_sound_after(|it| it.desk = Desk::of_numbers(numbers)), same, "number {place} as {other}");
        }
    }
    assert!(!is_sound_after(|it| it.desk.rows.swap(0, 1)), "by rising batch number");
}

#[test]
fn the_stored_records_are_the_first_of_the_working_ones() {
    let stored = register().desk.stored as usize;
    assert!(stored < register().desk.written as usize);
    assert!(!is_sound_after(|it| it.areas.stable_log[0] ^= 1));
    assert!(!is_sound_after(|it| it.areas.stable_log[stored * SLOT_BYTES] = 1), "one more full slot");
    assert!(!is_sound_after(|it| it.areas.stable_log[(SLOTS - 1) * SLOT_BYTES] = 1), "a full slot after an empty one");
    assert!(!is_sound_after(|it| it.areas.stable_log[(stored - 1) * SLOT_BYTES..stored * SLOT_BYTES].fill(0)));
}

#[test]
fn the_stable_pages_are_not_asked() {
    assert!(is_sound_after(|it| it.areas.stable_pages.fill(0xA5)));
}

#[test]
fn the_working_areas_keep_layout_rows_chain_and_tree_rules() {
    assert!(!is_sound_after(|it| it.areas.working_pages[127] = 1), "the map's bit of a page that is not there");
    assert!(!is_sound_after(|it| it.areas.working_pages[128 + 8] = 1), "a log number above the last record's");
    assert!(!is_sound_after(|it| it.areas.working_pages[128 + 4] = 0), "the root's high key");
    assert!(!is_sound_after(|it| it.areas.working_log[3] = 1), "a spare bit of a record");
    assert!(!is_sound_after(|it| it.areas.working_log[(SLOTS - 1) * SLOT_BYTES] = 1));
}

/// The working areas and desk of some work, all of it unstored.
fn lent_to(work: &Work) -> Instrument {
    let mut instrument = Instrument::lent(work.pages.count(), work.log.slots);
    instrument.areas.working_pages = work.pages.bytes();
    instrument.areas.working_log = work.log.bytes();
    instrument.desk = work.open.desk(work.log.last_number(), 0);
    instrument
}

/// So many inserts pending in one batch.
fn pending_inserts(count: u32, pages: usize, slots: usize) -> Instrument {
    let mut instrument = Instrument::lent(pages, slots);
    instrument.make(Call::Format);
    let Areas { working_pages, working_log, .. } = &instrument.areas;
    let mut work = Work::read_working(working_pages, working_log).expect("formatted");
    work.write(Record::new(Kind::Begin)).expect("room");
    for key in 1..=count {
        work.write(Record { batch: 1, previous: key, a: 1, key, ..Record::new(Kind::Insert) }).expect("room");
    }
    lent_to(&work)
}

#[test]
fn the_reserves_hold() {
    // u + 32p + 2b slots and 7p pages besides the map and the root: here 4 + 96 + 2, and 21.
    assert!(is_sound(&pending_inserts(3, 23, 102)));
    assert!(!is_sound(&pending_inserts(3, 23, 101)));
    assert!(!is_sound(&pending_inserts(3, 22, 102)));
}

/// Batches 1 and 2, and these updates: batch, kind, key, value.
fn open_after(updates: &[(u32, Kind, u32, u32)]) -> OpenBatches {
    let mut open = OpenBatches::default();
    let mut write = |mut record: Record, own: u32| {
        record.own = own;
        record.previous = open.find(record.batch).map_or(0, |batch| batch.last);
        assert!(open.follow(&record).is_ok());
    };
    write(Record { batch: 1, ..Record::new(Kind::Begin) }, 1);
    write(Record { batch: 2, ..Record::new(Kind::Begin) }, 2);
    for ((batch, kind, key, second), own) in updates.iter().copied().zip(3..) {
        write(Record { batch, key, second, ..Record::new(kind) }, own);
    }
    open
}

#[test]
fn the_pending_rule() {
    use Kind::{Delete, Insert};
    let five = [Entry::new(5, 50)];
    let holds =
        |updates: &[(u32, Kind, u32, u32)], slides: &[Entry]| obeys_pending_rule(&open_after(updates), slides).is_ok();
    assert!(holds(&[(1, Insert, 5, 50)], &five));
    assert!(!holds(&[(1, Insert, 5, 50)], &[]), "the newest agrees with the tree");
    assert!(!holds(&[(1, Insert, 5, 51)], &five), "its value too");
    assert!(!holds(&[(1, Delete, 5, 50)], &five));
    assert!(holds(&[(1, Delete, 5, 49), (1, Insert, 5, 50)], &five));
    assert!(holds(&[(1, Insert, 5, 50), (1, Delete, 5, 50)], &[]));
    assert!(!holds(&[(1, Insert, 5, 51), (1, Delete, 5, 50)], &[]), "a delete after an insert has its value");
    assert!(!holds(&[(1, Insert, 5, 50), (1, Insert, 5, 50)], &five), "they alternate");
    assert!(!holds(&[(1, Insert, 5, 50), (2, Delete, 5, 50)], &[]), "they are of one batch");
    assert!(holds(&[(1, Insert, 5, 50), (2, Delete, 6, 60)], &five));
}
