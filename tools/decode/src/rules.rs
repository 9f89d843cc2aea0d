//! The tree rules, walked level by level from the root. Whoever passes them has the slides: the entries of all leaves.

use crate::layout::{Entry, Page, PageKind, Pages};
use crate::sizes::{FEWEST_ENTRIES, MAP, ROOT, TOP};
use crate::{Fault, Place, Refusal};

/// The slides by rising key. Refused (6) at the first page that breaks a tree rule.
pub fn slides_of(pages: &Pages) -> Result<Vec<Entry>, Fault> {
    let levels = levels_of(pages)?;
    let leaves = levels.last().into_iter().flatten();
    Ok(leaves.flat_map(|page| pages.list[*page].entries.iter().copied()).collect())
}

/// The pages of each level from left to right, the root's level first.
pub fn levels_of(pages: &Pages) -> Result<Vec<Vec<usize>>, Fault> {
    let mut reached = vec![false; pages.count()];
    reached[MAP] = true;
    let mut level = pages.list[ROOT].level;
    let mut levels = vec![walk_chain(pages, ROOT, level, &mut reached)?];
    if levels[0].len() > 2 {
        return Err(broken(levels[0][2], "the root has more than one page to its right"));
    }
    while level > 0 {
        level -= 1;
        let above = &levels[levels.len() - 1];
        let below = walk_chain(pages, pages.list[above[0]].entries[0].child(), level, &mut reached)?;
        entries_stand_for(pages, above, &below)?;
        levels.push(below);
    }
    // "A page is marked used exactly when it is the map or is reached, once, from the root."
    match (0..pages.count()).find(|page| pages.map.is_used(*page) != reached[*page]) {
        Some(page) if reached[page] => Err(broken(page, "it is in the tree, and the map has it as free")),
        Some(page) => Err(broken(page, "the map has it as used, and the tree does not reach it")),
        None => Ok(levels),
    }
}

fn broken(page: usize, rule: impl Into<String>) -> Fault {
    Fault::new(Refusal::Tree, Place::Page(page), rule)
}

/// The pages of one level, from `first` along the right links.
fn walk_chain(pages: &Pages, first: usize, level: usize, reached: &mut [bool]) -> Result<Vec<usize>, Fault> {
    let mut chain = Vec::new();
    let mut left_high = None;
    let mut next = first;
    loop {
        let Some(page) = pages.list.get(next) else {
            return Err(broken(next, "a link or an index entry leads to it, and it is not lent"));
        };
        if std::mem::replace(&mut reached[next], true) {
            return Err(broken(next, "it is reached twice from the root, or is the map"));
        }
        obeys_page_rules(page, next, level, left_high).map_err(|rule| broken(next, rule))?;
        chain.push(next);
        left_high = Some(page.high);
        if page.right == 0 {
            // High keys rise strictly, so only the last can be top.
            let last_is_top = page.high == TOP;
            return if last_is_top {
                Ok(chain)
            } else {
                Err(broken(next, "it is the last of its level, and its high key is not top"))
            };
        }
        next = page.right;
    }
}

/// What the rules ask of a page of this level whose left neighbour has this high key.
fn obeys_page_rules(page: &Page, number: usize, level: usize, left_high: Option<u32>) -> Result<(), &'static str> {
    if page.kind != PageKind::at_level(level) || page.level != level {
        return Err("its kind or level is not that of the level on which it is met");
    }
    if page.entries.len() < fewest_entries(page, number) {
        return Err("it has too few entries");
    }
    if left_high.is_some_and(|left| left >= page.high) {
        return Err("its high key is not above its left neighbour's");
    }
    if page.is_index() && page.entries.last().map(|entry| entry.key) != Some(page.high) {
        return Err("it is an index page, and its last entry does not have its high key");
    }
    entries_rise_within(page, left_high)
}

/// "Pages hold 4 to 14 entries; the root 0 to 14 as a leaf, 1 to 14 as an index", and 4 beside a sibling.
fn fewest_entries(page: &Page, number: usize) -> usize {
    match (number == ROOT && page.right == 0, page.is_leaf()) {
        (false, _) => FEWEST_ENTRIES,
        (true, true) => 0,
        (true, false) => 1,
    }
}

/// "A page covers keys above its left neighbour's high key up to its own. Entries rise strictly within that."
fn entries_rise_within(page: &Page, left_high: Option<u32>) -> Result<(), &'static str> {
    let mut below = left_high;
    for entry in &page.entries {
        if below.is_some_and(|below| entry.key <= below) {
            return Err("its keys do not rise, or one is not above its left neighbour's high key");
        }
        if entry.key > page.high {
            return Err("a key of it is above its high key");
        }
        below = Some(entry.key);
    }
    Ok(())
}

/// "An index entry (w, c) stands for child c, and for one page after it if c's high key is below w; that page, up to w,
/// is indirect." The entries of a level, in order, stand for the level below, each page once. As every entry begins
/// with a direct page, two indirect pages cannot adjoin.
fn entries_stand_for(pages: &Pages, parents: &[usize], below: &[usize]) -> Result<(), Fault> {
    let mut rest = below;
    for (parent, entry) in
        parents.iter().flat_map(|page| pages.list[*page].entries.iter().map(move |entry| (page, entry)))
    {
        let stands_for = match rest {
            [child, ..] if *child == entry.child() && pages.list[*child].high == entry.key => 1,
            [child, indirect, ..] if *child == entry.child() && pages.list[*indirect].high == entry.key => 2,
            _ => return Err(broken(*parent, not_standing(entry))),
        };
        rest = &rest[stands_for..];
    }
    match rest {
        [] => Ok(()),
        [page, ..] => Err(broken(*page, "no index entry stands for it")),
    }
}

fn not_standing(entry: &Entry) -> String {
    format!(
        "its entry for page {}, up to {}, does not stand for the next one or two pages below",
        entry.value, entry.key
    )
}
