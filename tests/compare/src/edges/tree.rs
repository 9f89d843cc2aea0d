//! Trees built page by page, from the leaves up: sound ones that no calls need have left.

use reference::bench::Random;
use reference::layout::{Entry, Map, Page, PageKind, Pages};
use reference::left::link_leaves;
use reference::sizes::{FEWEST_ENTRIES, MAP, MOST_ENTRIES, MOST_PAGES, ROOT, TOP};

/// How many entries each page has, level by level from the root down. Pages get the fewest where the levels below would
/// need more than so many pages otherwise.
fn counts(random: &mut Random, levels: usize, fullest: usize) -> Vec<Vec<usize>> {
    let mut all: Vec<Vec<usize>> = vec![];
    let (mut pages, mut used) = (1, 0);
    for level in (0..levels).rev() {
        let least_below = (0..level).map(|depth| FEWEST_ENTRIES.pow(depth as u32)).sum::<usize>();
        let room = MOST_PAGES - 60 - used - pages;
        let mut spare =
            if level == 0 { usize::MAX } else { (room / least_below).saturating_sub(FEWEST_ENTRIES * pages) };
        let mut of_level = vec![];
        for _ in 0..pages {
            let most = if level == 0 { MOST_ENTRIES } else { fullest };
            let extra = random.within(0, most - FEWEST_ENTRIES).min(spare);
            spare -= if level == 0 { 0 } else { extra };
            of_level.push(FEWEST_ENTRIES + extra);
        }
        if level + 1 == levels && level > 0 {
            of_level = vec![random.within(1, if levels == 6 { 2 } else { 3 })];
        }
        used += pages;
        pages = of_level.iter().sum();
        all.push(of_level);
    }
    all
}

struct Builder<'a> {
    random: &'a mut Random,
    pages: Pages,
    /// Pages that are free, in any order.
    free: Vec<usize>,
    last_key: u32,
}

/// A tree of so many levels. The root is page 1; the other pages stand anywhere.
pub fn built(random: &mut Random, levels: usize, fullest: usize) -> Pages {
    let counts = counts(random, levels, fullest);
    let mut free: Vec<usize> = (2..MOST_PAGES).collect();
    (1..free.len()).rev().for_each(|place| free.swap(place, random.below(place + 1)));
    // The root is built last.
    free.insert(MOST_PAGES - 2 - counts.iter().map(Vec::len).sum::<usize>() + 1, ROOT);
    let mut pages = Pages { map: Map::empty(), list: vec![Page::free(0, 0); MOST_PAGES] };
    pages.list[MAP].kind = PageKind::Map;
    pages.map.take(MAP);
    let last_key = random.below(2) as u32;
    let mut builder = Builder { random, pages, free, last_key };
    let mut below = vec![];
    for (level, of_level) in counts.iter().rev().enumerate() {
        below = builder.build_level(level, of_level, below);
    }
    link_leaves(&mut builder.pages);
    builder.pages
}

impl Builder<'_> {
    /// The pages of a level, over the entries for those below; answers the entries for these.
    fn build_level(&mut self, level: usize, counts: &[usize], below: Vec<Entry>) -> Vec<Entry> {
        let own = self.free.split_off(self.free.len() - counts.len());
        let mut children = below.into_iter();
        let mut entries_above = vec![];
        for (place, count) in counts.iter().enumerate() {
            let entries: Vec<Entry> = match level {
                0 => (0..*count).map(|_| self.slide()).collect(),
                _ => children.by_ref().take(*count).collect(),
            };
            let right = own.get(place + 1).copied().unwrap_or(0);
            let high = if right == 0 { TOP } else { entries[count - 1].key };
            let own = own[place];
            entries_above.push(Entry::to_child(high, own));
            self.pages.map.take(own);
            let kind = PageKind::at_level(level);
            self.pages.list[own] = Page { kind, level, right, left: 0, high, log: 0, own, entries };
        }
        entries_above
    }

    fn slide(&mut self) -> Entry {
        self.last_key += self.random.within(1, 3) as u32;
        Entry::new(self.last_key, self.random.number())
    }
}
