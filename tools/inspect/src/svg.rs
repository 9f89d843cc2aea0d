//! The tree as a picture: a box for each page, a line from an index entry to its child, an arrow for each right link. A page
//! that no entry names, an indirect one, has a dashed box.

use crate::text::{key, plural};
use crate::tree::{indirect_pages, redone};
use decode::layout::{Areas, Page, Pages};
use std::collections::BTreeMap;

const BOX: (usize, usize) = (110, 46);
const STEP: (usize, usize) = (140, 110);
const MARGIN: usize = 20;

/// The left upper corner of each page's box.
type Corners = BTreeMap<usize, (usize, usize)>;

pub fn svg(areas: &Areas) -> Result<Vec<String>, String> {
    let (pages, levels) = redone(areas)?;
    let indirect = indirect_pages(&pages, &levels);
    let widest = levels.iter().map(Vec::len).max().unwrap_or(1);
    let corners = corners_of(&levels, widest);
    let (width, height) = (2 * MARGIN + widest * STEP.0, 2 * MARGIN + levels.len() * STEP.1);
    let mut lines = vec![
        format!(r#"<svg xmlns="http://www.w3.org/2000/svg" width="{width}" height="{height}" viewBox="0 0 {width} {height}" font-family="sans-serif" font-size="11">"#),
        r#"<defs><marker id="to" viewBox="0 0 8 8" refX="8" refY="4" markerWidth="7" markerHeight="7" orient="auto"><path d="M0 0 L8 4 L0 8 z"/></marker></defs>"#.to_string(),
    ];
    for page in levels.iter().flatten() {
        lines.extend(links(&pages.list[*page], &corners));
    }
    for page in levels.iter().flatten() {
        lines.extend(page_box(&pages, *page, &corners, indirect.contains(page)));
    }
    lines.push("</svg>".to_string());
    Ok(lines)
}

/// Each level in the middle of its row.
fn corners_of(levels: &[Vec<usize>], widest: usize) -> Corners {
    let mut corners = Corners::new();
    for (row, chain) in levels.iter().enumerate() {
        let indent = MARGIN + (widest - chain.len()) * STEP.0 / 2;
        for (place, page) in chain.iter().enumerate() {
            corners.insert(*page, (indent + place * STEP.0, MARGIN + row * STEP.1));
        }
    }
    corners
}

fn links(page: &Page, corners: &Corners) -> Vec<String> {
    let (x, y) = corners[&page.own];
    let mut lines = Vec::new();
    if page.is_index() {
        let children = page.entries.iter().filter_map(|entry| corners.get(&entry.child()));
        lines.extend(children.map(|(to_x, to_y)| {
            let (from_x, from_y, to_x) = (x + BOX.0 / 2, y + BOX.1, to_x + BOX.0 / 2);
            format!(r##"<line x1="{from_x}" y1="{from_y}" x2="{to_x}" y2="{to_y}" stroke="#888"/>"##)
        }));
    }
    if let Some((to_x, _)) = corners.get(&page.right) {
        let (from_x, middle) = (x + BOX.0, y + BOX.1 / 2);
        lines.push(format!(
            r##"<line x1="{from_x}" y1="{middle}" x2="{to_x}" y2="{middle}" stroke="#000" marker-end="url(#to)"/>"##
        ));
    }
    lines
}

fn page_box(pages: &Pages, number: usize, corners: &Corners, is_indirect: bool) -> Vec<String> {
    let page = &pages.list[number];
    let (x, y) = corners[&number];
    let (width, height) = BOX;
    let dashes = if is_indirect { r#" stroke-dasharray="5 3""# } else { "" };
    let fill = if page.is_leaf() { "#eef6ee" } else { "#eef" };
    let what = if page.is_leaf() { ("slide", "slides") } else { ("child", "children") };
    let text = |row: usize, words: String| format!(r#"<text x="{}" y="{}">{words}</text>"#, x + 6, y + 14 * (row + 1));
    let all: Vec<String> = page.entries.iter().map(|entry| format!("({},{})", key(entry.key), entry.value)).collect();
    vec![
        "<g>".to_string(),
        format!("<title>page {number}: {}</title>", all.join(" ")),
        format!(r##"<rect x="{x}" y="{y}" width="{width}" height="{height}" fill="{fill}" stroke="#000"{dashes}/>"##),
        text(0, format!("page {number}, log {}", page.log)),
        text(1, plural(page.entries.len(), what.0, what.1)),
        text(2, format!("up to {}", key(page.high))),
        "</g>".to_string(),
    ]
}
