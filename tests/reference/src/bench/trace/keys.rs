//! Which key comes next. Keys come from a small set, walked up, down or in leaps, first mostly put in and then mostly
//! taken out, so that the tree gains levels and loses them again.

use crate::bench::Random;
use crate::layout::Entry;
use crate::sizes::{FEWEST_PAGES, TOP};

pub struct Keys {
    /// How many keys there are, and how far apart.
    span: usize,
    stride: u32,
    cursor: usize,
    step: usize,
    /// Whether slides are mostly put in now.
    pub growing: bool,
    most_slides: usize,
    /// One key in so many is from the ends, or from anywhere.
    ends: usize,
}

impl Keys {
    pub fn new(random: &mut Random, most_pages: usize, ends: usize) -> Keys {
        let room = 14 + 5 * (most_pages - FEWEST_PAGES);
        let most_slides = room.min(random.within(100, 420));
        let span = most_slides + most_slides / 3 + 1;
        let stride = [1, 10, TOP / span as u32][random.below(3)];
        let mut keys = Keys { span, stride, cursor: 0, step: 1, growing: true, most_slides, ends };
        keys.turn(random);
        keys
    }

    /// Walk another way from another place.
    fn turn(&mut self, random: &mut Random) {
        let leap = random.within(1, self.span - 1);
        self.step = [1, self.span - 1, leap][random.below(3)];
        self.cursor = random.below(self.span);
    }

    /// Turn from growing to shrinking, or back, where the tree is large or small enough, and now and then before.
    pub fn look_at(&mut self, random: &mut Random, slides: usize) {
        let done = if self.growing { slides >= self.most_slides } else { slides <= self.most_slides / 20 };
        if done || random.once_in(500) {
            self.growing = !self.growing;
            self.turn(random);
        }
    }

    fn advance(&mut self) -> u32 {
        self.cursor = (self.cursor + self.step) % self.span;
        self.cursor as u32 * self.stride
    }

    /// Mostly the next key of the set; now and then one from the edge.
    pub fn any(&mut self, random: &mut Random) -> u32 {
        let edge = [0, 1, TOP - 1, TOP, random.number()][random.below(5)];
        if random.once_in(self.ends) {
            edge
        } else {
            self.advance()
        }
    }

    /// The keys of the set from this one up, and between them where there are some.
    pub fn all_from(&self, from: u32) -> impl Iterator<Item = u32> {
        let between = (self.stride / 2).max(1) as usize;
        (from..=TOP).step_by(between).take(4 * self.span)
    }

    /// Mostly a key that is not there.
    pub fn absent(&mut self, random: &mut Random, slides: &[Entry]) -> u32 {
        let is_there = |key: u32| slides.binary_search_by_key(&key, |slide| slide.key).is_ok();
        let mut key = self.any(random);
        for _ in 0..self.span {
            if !is_there(key) {
                break;
            }
            // By ones, as leaps need not meet every key.
            self.cursor = (self.cursor + 1) % self.span;
            key = self.cursor as u32 * self.stride;
        }
        key
    }

    /// Mostly a key that is there, near the next one.
    pub fn present(&mut self, random: &mut Random, slides: &[Entry]) -> u32 {
        let near = self.any(random);
        let place = slides.partition_point(|slide| slide.key < near);
        slides.get(place).or(slides.first()).map_or(near, |slide| slide.key)
    }
}
