//! A small busy register: every kind of record in its log, two batches open, and pages written out at different times.

use reference::bench::Instrument;
use reference::calls::{Answer, Call};
use reference::layout::{Kind, Pages};
use reference::log::Log;

pub const PAGES: usize = 28;
pub const SLOTS: usize = 208;

pub struct Busy {
    pub register: Instrument,
    /// The two batches that are open, with one update pending each.
    pub first: u32,
    pub second: u32,
}

pub fn busy() -> Busy {
    let mut register = Instrument::lent(PAGES, SLOTS);
    make(&mut register, Call::Format);
    grow(&mut register);
    shrink(&mut register);
    let first = begin(&mut register);
    delete(&mut register, first, 230);
    let second = begin(&mut register);
    delete(&mut register, second, 60);
    make(&mut register, Call::WriteOut { page: 0 });
    assert_eq!(kinds(&register), Kind::ALL, "every kind of record");
    Busy { register, first, second }
}

/// The same in longer areas, with room for one update more.
pub fn roomy() -> Busy {
    let mut busy = busy();
    busy.register.areas = busy.register.areas.grown(PAGES + 8, SLOTS + 40);
    busy
}

/// Three leaves under a root: two splits, a raise and a link.
fn grow(register: &mut Instrument) {
    for key in (10..150).step_by(20) {
        case(register, &[key, key + 10], &[]);
    }
    make(register, Call::WriteOut { page: 1 });
    case(register, &[150, 160], &[]);
    case(register, &[170, 180], &[]);
    case(register, &[190, 200], &[]);
    make(register, Call::WriteOut { page: 27 });
    case(register, &[210, 220], &[]);
    case(register, &[230], &[]);
}

/// A case taken back, a merge and a redistribution. What is left are two leaves, of which the right one has 4 slides.
fn shrink(register: &mut Instrument) {
    let batch = begin(register);
    insert(register, batch, 25);
    delete(register, batch, 30);
    make(register, Call::Abort { batch });
    case(register, &[], &[10, 20]);
    case(register, &[], &[30]);
    case(register, &[], &[40]);
    make(register, Call::WriteOut { page: 26 });
    case(register, &[], &[150, 160]);
    case(register, &[], &[170, 180]);
    case(register, &[55], &[190]);
    case(register, &[], &[200]);
    case(register, &[], &[140, 210]);
}

fn case(register: &mut Instrument, inserted: &[u32], deleted: &[u32]) {
    let batch = begin(register);
    inserted.iter().for_each(|key| insert(register, batch, *key));
    deleted.iter().for_each(|key| delete(register, batch, *key));
    make(register, Call::Commit { batch });
}

fn begin(register: &mut Instrument) -> u32 {
    match make(register, Call::Begin) {
        Answer::Batch(batch) => batch,
        answer => unreachable!("begin answers {answer:?}"),
    }
}

fn insert(register: &mut Instrument, batch: u32, key: u32) {
    make(register, Call::Insert { batch, key, value: key + 1 });
}

fn delete(register: &mut Instrument, batch: u32, key: u32) {
    make(register, Call::Delete { batch, key });
}

fn make(register: &mut Instrument, call: Call) -> Answer {
    register.make(call).answer.unwrap_or_else(|refusal| panic!("{call:?}: {refusal:?}"))
}

/// The kinds of the records in the stable log, each once.
fn kinds(register: &Instrument) -> Vec<Kind> {
    let pages = Pages::read(&register.areas.stable_pages).expect("pages");
    let log = Log::read(&register.areas.stable_log, pages.count()).expect("records");
    let mut kinds: Vec<Kind> = log.records.iter().map(|record| record.kind).collect();
    kinds.sort();
    kinds.dedup();
    kinds
}
