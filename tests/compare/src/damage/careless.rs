//! Registers written without asking what the calls ask, and some of their records forged besides: a restart of each, with
//! its pages written out or not, and the other calls on it where it stands.

use super::redone::try_calls;
use super::{put, restart, Tried};
use crate::beside::Beside;
use crate::difference::Difference;
use reference::bench::forge::{forge_page, forge_record};
use reference::bench::{careless, Careless, Random};
use reference::layout::{Areas, Desk, Kind, Pages, Record};
use reference::log::{OpenBatches, Work};
use reference::sizes::{FEWEST_SLOTS, MOST_BATCHES, PAGE_BYTES, ROOT, SLOT_BYTES};

const REGISTERS: usize = 6000;

/// How many calls each register gets beside the restarts.
const CALLS: usize = 6;

pub fn careless_registers() -> Tried {
    let mut beside = Beside::new();
    let mut random = Random::new(24);
    for number in 0..REGISTERS {
        let mut register = careless(&mut random);
        forge(&mut random, &mut register.work);
        try_register(&mut beside, &mut random, register)
            .map_err(|difference| difference.at(format!("careless register {number}")))?;
    }
    Ok(beside.tally)
}

/// Forge something, or nothing.
fn forge(random: &mut Random, work: &mut Work) {
    let records = &mut work.log.records;
    match random.below(8) {
        0 => crowd(random, records),
        1 => add_to_a_batch(random, records),
        2 | 3 => {
            let place = random.below(records.len());
            forge_record(random, &mut records[place], work.pages.count());
        }
        4 => {
            let page = if random.once_in(2) { ROOT } else { random.below(work.pages.count()) };
            forge_page(random, &mut work.pages.list[page]);
        }
        _ => {}
    }
}

/// Begin batches, up to more than eight, and commit some of them again.
fn crowd(random: &mut Random, records: &mut Vec<Record>) {
    let first = records.len() as u32 + 1;
    let last = first + random.below(MOST_BATCHES + 1) as u32;
    records.extend((first..=last).map(|own| Record { own, batch: own, ..Record::new(Kind::Begin) }));
    let committed = (first..=last).skip(random.below(3)).zip(last + 1..);
    records.extend(committed.map(|(batch, own)| Record { own, batch, previous: batch, ..Record::new(Kind::Commit) }));
}

/// One record more of an open batch, after its last one, whether the chain lets it follow or not.
fn add_to_a_batch(random: &mut Random, records: &mut Vec<Record>) {
    let open = OpenBatches::after(records).map_or(Vec::new(), |open| open.list);
    if open.is_empty() {
        return;
    }
    let batch = &open[random.below(open.len())];
    let kind = Kind::ALL[random.within(1, 7)];
    let own = records.len() as u32 + 1;
    let mut record = Record { own, batch: batch.number, previous: batch.last, ..Record::new(kind) };
    if kind < Kind::Commit {
        record.a = ROOT;
        record.key = random.number();
    }
    records.push(record);
}

fn try_register(beside: &mut Beside, random: &mut Random, register: Careless) -> Result<(), Difference> {
    let Careless { mut work, moments, .. } = register;
    let written = work.log.records.len();
    // Slots to spare, or so few that a restart or the reserves run short.
    work.log.slots = (written + [0, 5, 40, 700][random.below(4)]).max(FEWEST_SLOTS);
    let (pages, log) = (&work.pages, work.log.bytes());
    let mut areas = Areas {
        working_pages: pages.bytes(),
        stable_pages: pages.stored().bytes(),
        working_log: log.clone(),
        stable_log: log,
    };
    restart(beside, &areas, "all pages written out")?;
    areas.stable_pages = Pages::formatted(work.pages.count()).bytes();
    restart(beside, &areas, "no page written out")?;
    areas.stable_pages = of_moments(random, &moments);
    restart(beside, &areas, "pages written out at some moments")?;
    let stored = if random.once_in(2) { written } else { random.below(written + 1) };
    areas.stable_log[stored * SLOT_BYTES..].fill(0);
    try_calls(beside, random, areas, desk_of(&work.log.records, stored), CALLS)
}

/// The desk that the log says, or an empty one where its chain is broken.
fn desk_of(records: &[Record], stored: usize) -> Desk {
    let open = OpenBatches::after(records).unwrap_or_default();
    open.desk(records.len() as u32, stored as u32)
}

/// Each page as it was at one of the moments.
fn of_moments(random: &mut Random, moments: &[Pages]) -> Vec<u8> {
    let mut bytes = moments[0].bytes();
    for page in 0..moments[0].count() {
        put(&mut bytes, PAGE_BYTES, page, &moments[random.below(moments.len())].page_bytes(page));
    }
    bytes
}
