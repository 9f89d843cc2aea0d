//! Records and pages as text, a line each.

use decode::layout::{Entry, Kind, Map, Page, PageKind, Record};
use decode::sizes::TOP;

/// A key, with top by its name.
pub fn key(key: u32) -> String {
    if key == TOP {
        "top".to_string()
    } else {
        key.to_string()
    }
}

pub fn plural(count: usize, one: &str, many: &str) -> String {
    format!("{count} {}", if count == 1 { one } else { many })
}

/// A record by its kind's name, with the fields that its row names.
pub fn record(record: &Record) -> String {
    let Record { own, batch, previous, a, b, c, second, right, level, .. } = record;
    let name = record.kind.name();
    let slide = record.key;
    match record.kind {
        Kind::Begin => format!("{own} {name} batch {batch}"),
        Kind::Insert | Kind::Delete => {
            format!("{own} {name} batch {batch} previous {previous} page {a} key {slide} value {second}")
        }
        Kind::UndoInsert => format!("{own} {name} batch {batch} next-to-undo {previous} page {a} key {slide}"),
        Kind::UndoDelete => {
            format!("{own} {name} batch {batch} next-to-undo {previous} page {a} key {slide} value {second}")
        }
        Kind::Commit | Kind::AbortMark | Kind::End => format!("{own} {name} batch {batch} previous {previous}"),
        Kind::Split => format!(
            "{own} {name} page {a} new {b} level {level} key {} old-high {} right {right} moved{}",
            key(slide),
            key(*second),
            entries(&record.entries)
        ),
        Kind::Link | Kind::Unlink => {
            format!("{own} {name} parent {a} left {b} right {c} key {} bound {}", key(slide), key(*second))
        }
        Kind::Merge => {
            format!(
                "{own} {name} page {a} freed {b} high {} right {right} moved{}",
                key(slide),
                entries(&record.entries)
            )
        }
        Kind::Redistribute => {
            format!("{own} {name} left {a} right {b} key {} moved{}", key(slide), entries(&record.entries))
        }
        Kind::Raise => format!(
            "{own} {name} root {a} right {b} new {c} level {level} key {} moved{}",
            key(slide),
            entries(&record.entries)
        ),
        Kind::Lower => format!("{own} {name} root {a} freed {b} level {level} moved{}", entries(&record.entries)),
    }
}

pub fn entries(entries: &[Entry]) -> String {
    entries.iter().map(|entry| format!(" ({},{})", key(entry.key), entry.value)).collect()
}

/// A stored page's fields, as its bytes show them. It has no left link.
pub fn page(bytes: &[u8]) -> String {
    let Page { kind, level, right, high, log, own, entries: list, .. } = Page::read(bytes);
    match kind {
        PageKind::Map => {
            let map = Map::read(bytes);
            let used: Vec<String> =
                (0..Map::BITS).filter(|page| map.is_used(*page)).map(|page| page.to_string()).collect();
            format!("map log {log} used {}", used.join(","))
        }
        PageKind::Free if log == 0 && own == 0 => "never used".to_string(),
        PageKind::Free => format!("free log {log} own {own}"),
        PageKind::Leaf => format!("leaf right {right} high {} log {log} own {own} slides{}", key(high), entries(&list)),
        PageKind::Index => {
            format!(
                "index level {level} right {right} high {} log {log} own {own} children{}",
                key(high),
                entries(&list)
            )
        }
    }
}
