//! A whole area of pages: the map and the pages at their places.

use super::page::{Judged, BODY, HEAD, LEFT};
use super::{Map, Page, PageKind};
use crate::sizes::{MAP, MOST_ENTRIES, PAGE_BYTES, ROOT, TOP};
use crate::{Fault, Place, Refusal};

#[derive(Clone, Debug, PartialEq, Eq)]
pub struct Pages {
    pub map: Map,
    /// Page 0 stands here too, for its kind and log number.
    pub list: Vec<Page>,
}

impl Pages {
    /// A map and an empty root leaf; the other pages were never used.
    pub fn formatted(count: usize) -> Pages {
        let mut list = vec![Page::free(0, 0); count];
        list[MAP].kind = PageKind::Map;
        list[ROOT].kind = PageKind::Leaf;
        list[ROOT].own = ROOT;
        list[ROOT].high = TOP;
        let mut map = Map::empty();
        map.take(MAP);
        map.take(ROOT);
        Pages { map, list }
    }

    /// The fields that the bytes show, whatever else they hold.
    pub fn shown(area: &[u8]) -> Pages {
        Pages { map: Map::read(area), list: area.chunks_exact(PAGE_BYTES).map(Page::read).collect() }
    }

    /// Stable pages. Refused (3) at the first one that breaks the layout.
    pub fn read(area: &[u8]) -> Result<Pages, Fault> {
        Pages::judged(area, Pages::judge_page)
    }

    /// Working pages, whose leaves have left links.
    pub fn read_working(area: &[u8]) -> Result<Pages, Fault> {
        Pages::judged(area, Pages::judge_working_page)
    }

    fn judged(area: &[u8], judge: fn(&Pages, usize, &[u8]) -> Judged) -> Result<Pages, Fault> {
        if area.len() % PAGE_BYTES != 0 {
            return Err(Fault::new(Refusal::Layout, Place::Areas, "the pages end in a part of one"));
        }
        let pages = Pages::shown(area);
        for (place, bytes) in area.chunks_exact(PAGE_BYTES).enumerate() {
            let fault = |(byte, rule)| Fault::new(Refusal::Layout, Place::PageByte(place, byte), rule);
            judge(&pages, place, bytes).map_err(fault)?;
        }
        Ok(pages)
    }

    /// Whether a stable page keeps the layout.
    pub fn judge_page(&self, place: usize, bytes: &[u8]) -> Judged {
        self.judge_working_page(place, bytes)?;
        match self.list[place].left {
            0 => Ok(()),
            left => Err((LEFT, format!("it has the left link {left}, and only working pages have one"))),
        }
    }

    /// Whether a working page keeps the layout, and its bytes are those of its fields. Where its left link leads to is not
    /// the layout's matter.
    fn judge_working_page(&self, place: usize, bytes: &[u8]) -> Judged {
        self.list[place].judge_layout(place)?;
        if place == MAP {
            self.judge_map()?;
        }
        match self.page_bytes(place).iter().zip(bytes).position(|(shown, byte)| shown != byte) {
            Some(_) if Page::count_in(bytes) > MOST_ENTRIES && place != MAP => {
                Err((HEAD, "its count is 15".to_string()))
            }
            Some(byte) => Err((byte, "a spare bit or an unused entry is not zero".to_string())),
            None => Ok(()),
        }
    }

    /// Bits at or above the page count are spare.
    fn judge_map(&self) -> Judged {
        match (self.count()..Map::BITS).find(|page| self.map.is_used(*page)) {
            Some(page) => Err((BODY + page / 8, format!("it marks page {page}, which is not lent"))),
            None => Ok(()),
        }
    }

    pub fn page_bytes(&self, page: usize) -> [u8; PAGE_BYTES] {
        let mut bytes = self.list[page].bytes();
        if page == MAP {
            self.map.write(&mut bytes);
        }
        bytes
    }

    pub fn bytes(&self) -> Vec<u8> {
        (0..self.count()).flat_map(|page| self.page_bytes(page)).collect()
    }

    /// The pages as they are stored.
    pub fn stored(&self) -> Pages {
        Pages { map: self.map.clone(), list: self.list.iter().map(Page::stored).collect() }
    }

    pub fn count(&self) -> usize {
        self.list.len()
    }

    pub fn free_count(&self) -> usize {
        self.count() - self.map.used_count()
    }

    pub fn highest_free(&self) -> Option<usize> {
        self.map.highest_free(self.count())
    }
}
