//! What differs between the library and the model, in words: which area, and which byte first.

use reference::sizes::{PAGE_BYTES, SLOT_BYTES};
use std::fmt;

#[derive(Debug)]
pub struct Difference(String);

/// The four areas, in the order in which they are lent: the name, and what it is made of.
pub const AREAS: [(&str, &str, usize); 4] = [
    ("working pages", "page", PAGE_BYTES),
    ("stable pages", "page", PAGE_BYTES),
    ("working log", "slot", SLOT_BYTES),
    ("stable log", "slot", SLOT_BYTES),
];

impl Difference {
    pub fn new(what: impl Into<String>) -> Difference {
        Difference(what.into())
    }

    /// The same, with where it was met before it.
    pub fn at(self, place: impl fmt::Display) -> Difference {
        Difference(format!("{place}: {}", self.0))
    }
}

impl fmt::Display for Difference {
    fn fmt(&self, to: &mut fmt::Formatter<'_>) -> fmt::Result {
        to.write_str(&self.0)
    }
}

/// Numbers that should be the same.
pub fn same_number(name: &str, library: u32, model: u32) -> Result<(), Difference> {
    if library == model {
        return Ok(());
    }
    Err(Difference(format!("{name}: {library} by the library, {model} by the model")))
}

/// One of the four areas.
pub fn same_area(area: usize, library: &[u8], model: &[u8]) -> Result<(), Difference> {
    let (name, unit, size) = AREAS[area];
    same_bytes(name, library, model, |byte| format!("{unit} {}, byte {} of it", byte / size, byte % size))
}

/// The desk: 34 numbers.
pub fn same_desk(library: &[u8], model: &[u8]) -> Result<(), Difference> {
    same_bytes("desk", library, model, |byte| format!("number {} of 0 to 33", byte / 4))
}

fn same_bytes(name: &str, library: &[u8], model: &[u8], place: impl Fn(usize) -> String) -> Result<(), Difference> {
    if library == model {
        return Ok(());
    }
    let differs = |byte: &usize| library.get(*byte) != model.get(*byte);
    let longer = library.len().max(model.len());
    let first = (0..longer).find(differs).unwrap_or(longer);
    let count = (0..longer).filter(differs).count();
    let shown = |bytes: &[u8]| bytes.get(first).map_or("none".to_string(), |byte| format!("{byte:02x}"));
    Err(Difference(format!(
        "the {name}: {count} bytes, first byte {first} ({}): {} by the library, {} by the model",
        place(first),
        shown(library),
        shown(model)
    )))
}
