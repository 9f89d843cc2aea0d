//! A register past its reserves, which keep a running one from such a state: a restart of it runs short.

use crate::calls::write_update;
use crate::layout::{Areas, Entry, Kind, Record};
use crate::log::Work;
use crate::sizes::{PAGE_BYTES, SLOT_BYTES};
use crate::Refusal;

/// Past the reserves: only the place for each record and page is asked for.
fn update(work: &mut Work, batch: u32, kind: Kind, key: u32) -> Result<(), Refusal> {
    write_update(work, batch, kind, Entry::new(key, key))
}

fn begin(work: &mut Work) -> u32 {
    work.write(Record::new(Kind::Begin)).expect("room");
    work.log.last_number()
}

/// 16 pages, all used; the batch that is open has taken a slide out of a leaf that others have filled again.
pub fn full_register() -> Work {
    let mut work = Work::formatted(16, 1024);
    let first = begin(&mut work);
    let fill = |key: &u32| update(&mut work, first, Kind::Insert, key * 10).is_err();
    let last = (1..).find(fill).expect("pages end");
    work.write_about_batch(Kind::Commit, first).expect("room");
    assert_eq!(work.pages.free_count(), 0);
    let open = begin(&mut work);
    let other = begin(&mut work);
    // The last leaf is full: the insert that found no page would have split it.
    let key = (last - 1) * 10;
    update(&mut work, open, Kind::Delete, key).expect("room");
    update(&mut work, other, Kind::Insert, key + 1).expect("room");
    work.write_about_batch(Kind::Commit, other).expect("room");
    work
}

/// The work as a stored image with so many slots and pages.
pub fn image_of(work: &Work, pages: usize, slots: usize) -> Areas {
    let mut areas = Areas {
        working_pages: vec![0xA5; pages * PAGE_BYTES],
        stable_pages: work.pages.stored().bytes(),
        working_log: vec![0xA5; slots * SLOT_BYTES],
        stable_log: work.log.bytes(),
    };
    areas.stable_pages.resize(pages * PAGE_BYTES, 0);
    areas.stable_log.resize(slots * SLOT_BYTES, 0);
    areas
}
