//! The tree that redo leaves, before open batches are taken back: its levels from the root down, a line for each page.

use crate::text::{entries, key, plural};
use decode::layout::{Areas, Page, Pages};
use decode::rules::levels_of;
use reference::calls::redo_alone;

/// The pages after redo, and the pages of each level. Else what is wrong.
pub fn redone(areas: &Areas) -> Result<(Pages, Vec<Vec<usize>>), String> {
    let fault = |fault: decode::Fault| format!("restart answers {}: {fault}", fault.number());
    let (work, _) = redo_alone(areas).map_err(fault)?;
    let levels = levels_of(&work.pages).map_err(fault)?;
    Ok((work.pages, levels))
}

/// The pages of a level that no index entry names: each is the one after a child whose high key is below its entry's.
pub fn indirect_pages(pages: &Pages, levels: &[Vec<usize>]) -> Vec<usize> {
    let above = levels.iter().flatten().map(|page| &pages.list[*page]).filter(|page| page.is_index());
    let named: Vec<usize> = above.flat_map(|page| page.entries.iter().map(|entry| entry.child())).collect();
    levels.iter().skip(1).flatten().copied().filter(|page| !named.contains(page)).collect()
}

pub fn tree(areas: &Areas) -> Result<Vec<String>, String> {
    let (pages, levels) = redone(areas)?;
    let indirect = indirect_pages(&pages, &levels);
    let mut lines = Vec::new();
    for (level, chain) in (0..levels.len()).rev().zip(&levels) {
        lines.push(format!("level {level}: {}", plural(chain.len(), "page", "pages")));
        lines.extend(chain.iter().map(|page| line(&pages.list[*page], indirect.contains(page))));
    }
    Ok(lines)
}

fn line(page: &Page, is_indirect: bool) -> String {
    let right = if page.right == 0 { String::new() } else { format!(" right {}", page.right) };
    let mark = if is_indirect { ", indirect" } else { "" };
    let what = if page.is_leaf() { "slides" } else { "children" };
    format!(
        "  page {}{mark}: high {}{right} log {} {what}{}",
        page.own,
        key(page.high),
        page.log,
        entries(&page.entries)
    )
}
