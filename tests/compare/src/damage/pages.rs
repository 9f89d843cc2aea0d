//! Damaged pages: stale ones, which a restart brings up to date, and pages at wrong places or stored in half, which it refuses.

use super::busy::{busy, PAGES};
use super::{part, put, restart, Tried};
use crate::beside::Beside;
use crate::difference::Difference;
use reference::bench::Random;
use reference::calls::{Call, Outcome};
use reference::layout::{Areas, Desk, Pages};
use reference::log::{redo, Log};
use reference::sizes::PAGE_BYTES;

struct Image {
    beside: Beside,
    areas: Areas,
    /// The pages after each number of records.
    history: Vec<Vec<u8>>,
    /// What a restart of the undamaged image leaves.
    restarted: Outcome,
}

impl Image {
    fn new() -> Result<Image, Difference> {
        let areas = busy().register.areas;
        let mut beside = Beside::new();
        let restarted = restart(&mut beside, &areas, "undamaged")?;
        let records = Log::read(&areas.stable_log, PAGES).expect("records").records;
        let after = |count: usize| {
            let mut pages = Pages::formatted(PAGES);
            redo(&mut pages, &records[..count]).expect("a history");
            pages.bytes()
        };
        let history = (0..=records.len()).map(after).collect();
        Ok(Image { beside, areas, history, restarted })
    }

    /// Put a page as it was after so many records.
    fn put_version(&mut self, page: usize, records: usize) {
        let version = part(&self.history[records], PAGE_BYTES, page);
        put(&mut self.areas.stable_pages, PAGE_BYTES, page, &version);
    }

    /// Whatever was written out when, the restarted register is the same one.
    fn try_versions(&mut self, what: &str) -> Result<(), Difference> {
        let outcome = restart(&mut self.beside, &self.areas, what)?;
        if outcome.areas.working_pages != self.restarted.areas.working_pages {
            return Err(Difference::new(format!("{what}: restart leaves other pages than without")));
        }
        Ok(())
    }
}

/// Each page as it was after each record.
pub fn stale_pages() -> Tried {
    let mut image = Image::new()?;
    for page in 0..PAGES {
        let stored = part(&image.areas.stable_pages, PAGE_BYTES, page);
        for records in 0..image.history.len() {
            image.put_version(page, records);
            image.try_versions(&format!("page {page} as after {records} records"))?;
        }
        put(&mut image.areas.stable_pages, PAGE_BYTES, page, &stored);
    }
    Ok(image.beside.tally)
}

/// All pages as they were at different times.
pub fn mixed_pages() -> Tried {
    let mut image = Image::new()?;
    let mut random = Random::new(5);
    for turn in 0..2000 {
        for page in 0..PAGES {
            let records = random.below(image.history.len());
            image.put_version(page, records);
        }
        image.try_versions(&format!("pages of mixed ages, turn {turn}"))?;
    }
    Ok(image.beside.tally)
}

/// Two pages swapped, one over another, a page of zeros, and a page of which one half is old and one half new.
pub fn pages_at_wrong_places() -> Tried {
    let mut image = Image::new()?;
    let stored = image.areas.stable_pages.clone();
    let last = image.history.len() - 1;
    for first in 0..PAGES {
        for second in 0..PAGES {
            let (one, other) = (part(&stored, PAGE_BYTES, first), part(&stored, PAGE_BYTES, second));
            put(&mut image.areas.stable_pages, PAGE_BYTES, second, &one);
            restart_and_format(&mut image, &format!("page {first} also at {second}"))?;
            put(&mut image.areas.stable_pages, PAGE_BYTES, first, &other);
            restart_and_format(&mut image, &format!("pages {first} and {second} swapped"))?;
            image.areas.stable_pages.copy_from_slice(&stored);
        }
        for half in (8..PAGE_BYTES).step_by(8) {
            let new = part(&image.history[last], PAGE_BYTES, first);
            image.areas.stable_pages[PAGE_BYTES * first..][..half].copy_from_slice(&new[..half]);
            restart_and_format(&mut image, &format!("page {first} new in its first {half} bytes"))?;
            image.areas.stable_pages[PAGE_BYTES * first..][..half].fill(0);
            restart_and_format(&mut image, &format!("page {first} zero in its first {half} bytes"))?;
            image.areas.stable_pages.copy_from_slice(&stored);
        }
    }
    Ok(image.beside.tally)
}

/// A restart, and a format of the same areas, which does not look at what they held.
fn restart_and_format(image: &mut Image, what: &str) -> Result<(), Difference> {
    restart(&mut image.beside, &image.areas, what)?;
    let formatted = image.beside.try_on(&image.areas, &Desk::empty(), Call::Format);
    formatted.map(drop).map_err(|difference| difference.at(what))
}
