//! Trees as deep as 896 pages allow. Five levels come from rising keys, which leave every page half full. Six come only from
//! pages of 4 entries, which no calls leave everywhere; such trees are built, and are sound.

use super::calls::calls_at_edges;
use super::tree::built;
use super::written::{begin, commit, insert, register};
use crate::beside::Beside;
use crate::damage::Tried;
use reference::bench::Random;
use reference::calls::{pages_suffice, slots_suffice, sound};
use reference::log::{Log, OpenBatches, Work};
use reference::sizes::{FEWEST_ENTRIES, MOST_ENTRIES, MOST_PAGES, MOST_SLOTS, ROOT, UPDATE_PAGES, UPDATE_RECORDS};

/// Rising keys until the tree has five levels, with room for each as the calls ask for it; then calls on it.
pub fn risen_tree() -> Tried {
    let mut work = Work::formatted(MOST_PAGES, MOST_SLOTS);
    let mut key = 1000;
    while work.page(ROOT).level < 4 {
        let batch = begin(&mut work);
        for _ in 0..if work.pages.free_count() > 100 { 4 } else { 1 } {
            assert!(slots_suffice(&work, UPDATE_RECORDS, 1, 0) && pages_suffice(&work, UPDATE_PAGES, 1), "room");
            insert(&mut work, batch, key);
            key += 40;
        }
        commit(&mut work, batch);
    }
    let (areas, desk) = register(&work, &work.pages);
    let mut beside = Beside::new();
    calls_at_edges(&mut beside, &mut Random::new(5), areas, desk, 60)?;
    Ok(beside.tally)
}

/// Sound trees of one to six levels, some of them with the fewest entries nearly everywhere, some with the most.
pub fn built_trees() -> Tried {
    let mut beside = Beside::new();
    let mut random = Random::new(6);
    for levels in [1, 2, 3, 4, 5, 6, 6, 6] {
        for fullest in [FEWEST_ENTRIES, MOST_ENTRIES] {
            let work = Work {
                pages: built(&mut random, levels, fullest),
                log: Log { records: vec![], slots: 420 },
                open: OpenBatches::default(),
            };
            let (areas, desk) = register(&work, &work.pages);
            assert!(sound(&areas, &desk).is_some(), "a built tree of {levels} levels is sound");
            calls_at_edges(&mut beside, &mut random, areas, desk, 40)
                .map_err(|difference| difference.at(format!("a tree of {levels} levels, at most {fullest} entries")))?;
        }
    }
    Ok(beside.tally)
}
