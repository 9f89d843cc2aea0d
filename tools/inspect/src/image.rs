//! A stored image, read from files: the stable pages and the stable log.
//!
//! `NAME.pages` and `NAME.log` hold the two raw areas. Any other name is a file of the example host.

use crate::copies::{self, number_at, Group, COPIES, COUNTS_PLACE, PAGE_PLACE, PLACE_BYTES, SLOT_PLACE};
use crate::group::{reading, LastGroup};
use decode::layout::Areas;
use decode::sizes::{MOST_PAGES, MOST_SLOTS, PAGE_BYTES, SLOT_BYTES};
use decode::{Fault, Place};
use std::fmt;
use std::fs::{File, OpenOptions};
use std::io::{self, Seek, SeekFrom, Write};

#[derive(Clone, Copy, Debug, PartialEq, Eq)]
pub enum Shape {
    Raw,
    Host,
}

/// A page, a slot or the counts of a host's file.
#[derive(Clone, Copy, Debug, PartialEq, Eq)]
pub enum Lost {
    Counts,
    Page(usize),
    Slot(usize),
}

pub struct Image {
    /// The stable areas; the working ones are zeros.
    pub areas: Areas,
    pub shape: Shape,
    /// Places of which no copy can be taken. Their bytes are all ones here, which is no page and no record.
    pub lost: Vec<Lost>,
    /// Places of which the host would write a copy anew, and which copy.
    pub stale_copies: Vec<(Lost, usize)>,
    /// Of the last call's stores some are not there, though they were.
    pub lacks_stores: bool,
}

impl fmt::Display for Lost {
    fn fmt(&self, to: &mut fmt::Formatter<'_>) -> fmt::Result {
        match self {
            Lost::Counts => write!(to, "the counts (place {COUNTS_PLACE})"),
            Lost::Page(page) => write!(to, "page {page} (place {})", PAGE_PLACE + page),
            Lost::Slot(slot) => write!(to, "slot {slot} (place {})", SLOT_PLACE + slot - 1),
        }
    }
}

impl Image {
    pub fn read(name: &str) -> Result<Image, String> {
        let read = |path: &str| std::fs::read(path).map_err(|error| format!("{path}: {error}"));
        let (pages, log) = (format!("{name}.pages"), format!("{name}.log"));
        if std::fs::exists(&pages).unwrap_or(false) {
            return Ok(Image::raw(read(&pages)?, read(&log)?));
        }
        let file = read(name)?;
        if !copies::has_mark(&file) {
            return Err(format!("{name}: no file of the example host, and there is no {pages}"));
        }
        Ok(Image::of_host(&file))
    }

    pub fn raw(stable_pages: Vec<u8>, stable_log: Vec<u8>) -> Image {
        let working_pages = vec![0; stable_pages.len()];
        let working_log = vec![0; stable_log.len()];
        let areas = Areas { working_pages, stable_pages, working_log, stable_log };
        Image { areas, shape: Shape::Raw, lost: Vec::new(), stale_copies: Vec::new(), lacks_stores: false }
    }

    fn of_host(file: &[u8]) -> Image {
        let mut image = Image { shape: Shape::Host, ..Image::raw(Vec::new(), Vec::new()) };
        let counts = image.take(file, &LastGroup::default(), COUNTS_PLACE, Lost::Counts);
        let (pages, slots) = if image.lost.is_empty() { counts_in(&counts) } else { counts_by_copies(file) };
        let mut areas = Areas::default().grown(pages, slots);
        let last = LastGroup::among(file, (PAGE_PLACE..PAGE_PLACE + pages).chain(SLOT_PLACE..SLOT_PLACE + slots));
        image.lacks_stores = last.lacks_stores();
        for (page, bytes) in areas.stable_pages.chunks_exact_mut(PAGE_BYTES).enumerate() {
            bytes.copy_from_slice(&image.take(file, &last, PAGE_PLACE + page, Lost::Page(page))[..PAGE_BYTES]);
        }
        for (slot, bytes) in areas.stable_log.chunks_exact_mut(SLOT_BYTES).enumerate() {
            bytes.copy_from_slice(&image.take(file, &last, SLOT_PLACE + slot, Lost::Slot(slot + 1)));
        }
        image.areas = areas;
        image
    }

    /// What is wrong with a slot; of one whose copies are lost, just that.
    pub fn said(&self, fault: &Fault) -> String {
        match fault.place {
            Place::Slot(slot) | Place::SlotByte(slot, _) if self.lost.contains(&Lost::Slot(slot)) => {
                format!("neither copy of {} is whole", Lost::Slot(slot))
            }
            _ => fault.to_string(),
        }
    }

    /// What the host reads at a place: the first copy that is whole and not ahead of its group.
    fn take(&mut self, file: &[u8], last: &LastGroup, place: usize, what: Lost) -> Vec<u8> {
        let [first, second] = reading(file, place);
        let first = first.filter(|_| !last.is_ahead(&first)).map(|copy| copy.bytes);
        let second = second.map(|copy| copy.bytes);
        match (first, second) {
            (None, None) => self.lost.push(what),
            (None, Some(_)) => self.stale_copies.push((what, 1)),
            (Some(_), _) if second != first => self.stale_copies.push((what, 2)),
            _ => {}
        }
        first.or(second).map_or(vec![0xFF; PLACE_BYTES], <[u8]>::to_vec)
    }

    /// Write this image as new files. Nothing that is there is written over.
    pub fn write(&self, name: &str) -> io::Result<()> {
        let new = |path: &str| OpenOptions::new().write(true).create_new(true).open(path);
        match self.shape {
            Shape::Raw => {
                new(&format!("{name}.pages"))?.write_all(&self.areas.stable_pages)?;
                new(&format!("{name}.log"))?.write_all(&self.areas.stable_log)
            }
            Shape::Host => self.write_host(new(name)?),
        }
    }

    fn write_host(&self, mut file: File) -> io::Result<()> {
        let mut counts = [0; 8];
        counts[..4].copy_from_slice(&(self.areas.page_count() as u32).to_be_bytes());
        counts[4..].copy_from_slice(&(self.areas.slot_count() as u32).to_be_bytes());
        put(&mut file, COUNTS_PLACE, &counts)?;
        for (page, bytes) in self.areas.stable_pages.chunks_exact(PAGE_BYTES).enumerate() {
            put(&mut file, PAGE_PLACE + page, bytes)?;
        }
        for (slot, bytes) in self.areas.stable_log.chunks_exact(SLOT_BYTES).enumerate() {
            put(&mut file, SLOT_PLACE + slot, bytes)?;
        }
        file.sync_all()
    }
}

/// Both copies of a place.
fn put(file: &mut File, place: usize, bytes: &[u8]) -> io::Result<()> {
    let mut block = [0; copies::BLOCK_BYTES];
    let copy = copies::seal(place, Group::default(), bytes);
    block[..copy.len()].copy_from_slice(&copy);
    for which in 0..COPIES {
        file.seek(SeekFrom::Start(copies::copy_at(place, which) as u64))?;
        file.write_all(&block)?;
    }
    Ok(())
}

fn counts_in(bytes: &[u8]) -> (usize, usize) {
    ((number_at(bytes, 0) as usize).min(MOST_PAGES), (number_at(bytes, 4) as usize).min(MOST_SLOTS))
}

/// Without the counts: as many pages and slots as there are places of which a copy is whole.
fn counts_by_copies(file: &[u8]) -> (usize, usize) {
    let is_there = |place: usize| (0..COPIES).any(|which| copies::unseal(file, place, which).is_some());
    let pages = (0..MOST_PAGES).rev().find(|page| is_there(PAGE_PLACE + page)).map_or(0, |page| page + 1);
    let slots = (0..MOST_SLOTS).rev().find(|slot| is_there(SLOT_PLACE + slot)).map_or(0, |slot| slot + 1);
    (pages, slots)
}
