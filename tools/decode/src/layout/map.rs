//! The map's 896 bits: bit p says that page p is used. Bit 0 is the most significant bit of the first byte.

use super::page::BODY;
use crate::sizes::PAGE_BYTES;

const MAP_BYTES: usize = PAGE_BYTES - BODY;

#[derive(Clone, Debug, PartialEq, Eq)]
pub struct Map {
    bits: [u8; MAP_BYTES],
}

impl Map {
    pub const BITS: usize = 8 * MAP_BYTES;

    pub fn empty() -> Map {
        Map { bits: [0; MAP_BYTES] }
    }

    pub fn read(page: &[u8]) -> Map {
        let mut map = Map::empty();
        map.bits.copy_from_slice(&page[BODY..PAGE_BYTES]);
        map
    }

    pub fn write(&self, page: &mut [u8]) {
        page[BODY..PAGE_BYTES].copy_from_slice(&self.bits);
    }

    pub fn is_used(&self, page: usize) -> bool {
        self.bits[page / 8] & (0x80 >> (page % 8)) != 0
    }

    pub fn take(&mut self, page: usize) {
        self.bits[page / 8] |= 0x80 >> (page % 8);
    }

    pub fn give_back(&mut self, page: usize) {
        self.bits[page / 8] &= !(0x80 >> (page % 8));
    }

    pub fn used_count(&self) -> usize {
        self.bits.iter().map(|byte| byte.count_ones() as usize).sum()
    }

    /// "The page taken is the free one with the highest number."
    pub fn highest_free(&self, pages: usize) -> Option<usize> {
        (0..pages).rev().find(|page| !self.is_used(*page))
    }
}
