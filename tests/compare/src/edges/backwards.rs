//! Stepping backwards: previous at and around every key, while other batches hold some; and left links that are not those of
//! the leaves to the left, in the working pages and in stored ones, bit by bit in pages of every kind.

use super::written::{begin, commit, delete, insert, register};
use crate::beside::Beside;
use crate::damage::{sound_calls, try_bit, Busy, Tried};
use crate::difference::Difference;
use reference::bench::Instrument;
use reference::calls::Call;
use reference::layout::{Areas, Desk, Page, PageKind, Pages};
use reference::log::Work;
use reference::sizes::{MAP, PAGE_BYTES, TOP};
use std::ops::Range;

const PAGES: usize = 96;
const SLOTS: usize = 900;

/// The bits of a page after its right link: ten of the left link, and two that are spare in every page.
const AFTER_RIGHT_LINK: Range<usize> = 20..32;

pub fn backwards() -> Tried {
    let mut beside = Beside::new();
    for slides in [0, 1, 14, 15, 16, 60, 150] {
        let (work, batches) = held(slides);
        let (areas, desk) = register(&work, &work.pages);
        let place = |difference: Difference| difference.at(format!("{slides} slides"));
        every_key(&mut beside, &areas, &desk, batches, slides).map_err(place)?;
        forged_links(&mut beside, &areas, &desk, batches[0], &work.pages).map_err(place)?;
    }
    turned_bits(&mut beside)?;
    Ok(beside.tally)
}

/// Slides 10, 20 and so on, which make leaves of all sizes, as some in between are taken out again. Two batches are open, and hold
/// keys at both ends and in the middle.
fn held(slides: u32) -> (Work, [u32; 2]) {
    let mut work = Work::formatted(PAGES, SLOTS);
    let filed = begin(&mut work);
    (1..=slides).for_each(|number| insert(&mut work, filed, 10 * number));
    (1..=slides)
        .filter(|number| number % 3 == 1 && *number > 20)
        .for_each(|number| delete(&mut work, filed, 10 * number));
    commit(&mut work, filed);
    let batches = [begin(&mut work), begin(&mut work)];
    for (place, key) in [5, 5 * slides + 3, 10 * slides + 7].into_iter().enumerate() {
        insert(&mut work, batches[place % 2], key);
    }
    (work, batches)
}

fn every_key(
    beside: &mut Beside,
    areas: &Areas,
    desk: &Desk,
    batches: [u32; 2],
    slides: u32,
) -> Result<(), Difference> {
    let keys = (0..=slides + 1).flat_map(|number| [10 * number, 10 * number + 1, 10 * number + 8]);
    for key in keys.chain([TOP - 1, TOP]) {
        for batch in [batches[0], batches[1], 0] {
            beside.try_on(areas, desk, Call::Previous { batch, key })?;
            beside.try_on(areas, desk, Call::Next { batch, key })?;
        }
    }
    Ok(())
}

/// Each leaf with another left link: the calls ask for it, and a restart refuses it in the stored pages.
fn forged_links(beside: &mut Beside, areas: &Areas, desk: &Desk, batch: u32, pages: &Pages) -> Result<(), Difference> {
    for leaf in pages.list.iter().filter(|page| page.is_leaf()) {
        for left in [0, 1, leaf.own, leaf.right, leaf.left ^ 1, leaf.left ^ 0x200, PAGES, 1023] {
            let page = Page { left, ..leaf.clone() };
            let mut forged = areas.clone();
            put(&mut forged.working_pages, &page);
            for made in [
                Call::Begin,
                Call::Previous { batch, key: 50 },
                Call::Insert { batch, key: 55, value: 1 },
                Call::Commit { batch },
            ] {
                beside.try_on(&forged, desk, made)?;
            }
            put(&mut forged.stable_pages, &page);
            beside.try_on(&forged, desk, Call::Restart)?;
        }
    }
    Ok(())
}

fn put(pages: &mut [u8], page: &Page) {
    pages[page.own * PAGE_BYTES..][..PAGE_BYTES].copy_from_slice(&page.bytes());
}

/// Each of the bits after the right link turned, in a page of each kind: in the working pages for every call that judges them,
/// in the stable pages for a restart.
fn turned_bits(beside: &mut Beside) -> Result<(), Difference> {
    let (work, [first, second]) = every_kind();
    let (areas, desk) = register(&work, &work.pages);
    let mut busy = Busy { register: Instrument { areas, desk, ..Instrument::default() }, first, second };
    let calls = sound_calls(&busy);
    assert!(busy.register.outcome_of(Call::Restart).answer.is_ok(), "a restart is refused where no bit is turned");
    for (kind, page) in one_of_each_kind(&work.pages) {
        for bit in AFTER_RIGHT_LINK.map(|bit| 8 * PAGE_BYTES * page + bit) {
            let areas = &mut busy.register.areas;
            let made_on_working = calls.into_iter().chain([Call::WriteOut { page: page as u32 }]);
            let on_working = made_on_working.map(|made| (0, desk, made));
            for (area, desk, made) in on_working.chain([(1, Desk::empty(), Call::Restart)]) {
                try_bit(beside, areas, &desk, area, bit, made).map_err(|difference| difference.at(kind))?;
            }
        }
    }
    Ok(())
}

/// Merges have left free pages. The next page that is taken is a leaf outside the tree, which the layout allows, and the leaf
/// for key 75 is full, so that an insert of it takes that page.
fn every_kind() -> (Work, [u32; 2]) {
    let (mut work, batches) = held(150);
    let more = begin(&mut work);
    (30..=45).filter(|number| number % 3 != 1).for_each(|number| delete(&mut work, more, 10 * number));
    for key in (71..=79).filter(|key| *key != 75) {
        if !leaf_of(&work.pages, 75).is_full() {
            insert(&mut work, more, key);
        }
    }
    commit(&mut work, more);
    let (full, taken) = (leaf_of(&work.pages, 75).clone(), work.pages.highest_free().expect("a free page"));
    assert!(full.is_full());
    work.pages.list[taken] = Page { own: taken, log: work.pages.list[taken].log, ..full };
    (work, batches)
}

/// The leaf of the tree for a key.
fn leaf_of(pages: &Pages, key: u32) -> &Page {
    let leaves = pages.list.iter().filter(|page| page.is_leaf() && page.high >= key);
    leaves.min_by_key(|page| page.high).expect("a leaf")
}

fn one_of_each_kind(pages: &Pages) -> [(&'static str, usize); 7] {
    let page = |used: bool, of_kind: fn(&Page) -> bool| {
        let found = (0..PAGES).find(|page| pages.map.is_used(*page) == used && of_kind(&pages.list[*page]));
        found.expect("a page of this kind")
    };
    [
        ("the map", MAP),
        ("the first leaf", page(true, |page| page.is_leaf() && page.left == 0)),
        ("a leaf between two", page(true, |page| page.is_leaf() && page.left != 0 && page.right != 0)),
        ("an index page", page(true, Page::is_index)),
        ("a page that was never used", page(false, |page| page.kind == PageKind::Free && page.log == 0)),
        ("a page that was used", page(false, |page| page.kind == PageKind::Free && page.log != 0)),
        ("a leaf outside the tree", page(false, Page::is_leaf)),
    ]
}
