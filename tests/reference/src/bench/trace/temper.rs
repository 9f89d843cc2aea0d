//! What kind of run a trace is: how large its registers are, how many batches it keeps open, how often trouble comes.

use crate::bench::Random;
use crate::sizes::{MOST_BATCHES, MOST_PAGES, MOST_SLOTS};

#[derive(Clone, Copy, Debug, PartialEq, Eq)]
pub enum Shape {
    /// What demand 3 speaks of: small registers, or quiet and larger ones with trees of three levels.
    Plain,
    /// The same, with damage once in a while: what demand 1 speaks of.
    Damaged,
    /// Eight batches are open most of the time, and a ninth is asked for.
    Crowded,
    /// 896 pages and 16,384 slots, most of them used from the start.
    Largest,
    /// Areas that just suffice or fall just short, and first and last keys.
    Edge,
    /// From the image of a version that still filed slide 0, and mostly about that slide.
    Field,
}

impl Shape {
    pub const ALL: [Shape; 6] =
        [Shape::Plain, Shape::Damaged, Shape::Crowded, Shape::Largest, Shape::Edge, Shape::Field];

    pub fn name(self) -> &'static str {
        match self {
            Shape::Plain => "plain",
            Shape::Damaged => "damaged",
            Shape::Crowded => "crowded",
            Shape::Largest => "largest",
            Shape::Edge => "edge",
            Shape::Field => "field",
        }
    }
}

pub struct Temper {
    /// Whether registers are large from the start.
    pub deep: bool,
    /// Growth stops here.
    pub most_pages: usize,
    pub most_slots: usize,
    /// Trouble comes once in so many steps.
    pub calm: usize,
    /// How many batches to keep open, and how many updates to leave pending in all of them.
    pub wanted_open: usize,
    pub wanted_pending: usize,
    /// How many of a hundred steps begin a batch where one is wanted.
    pub begins: usize,
    /// Whether the areas are as large as they may become from the start.
    pub exact: bool,
    /// One key in so many is a first or last one, or any at all.
    pub ends: usize,
}

impl Temper {
    pub fn new(random: &mut Random, shape: Shape) -> Temper {
        match shape {
            Shape::Plain | Shape::Damaged => Temper::any(random),
            Shape::Crowded => Temper::crowded(random),
            Shape::Largest => Temper::largest(random),
            Shape::Edge => Temper::edge(random),
            Shape::Field => Temper::field(random),
        }
    }

    /// Half of the runs are quiet and large, to reach trees of three levels; the others are of any size and temper.
    fn any(random: &mut Random) -> Temper {
        let deep = random.once_in(2);
        Temper {
            deep,
            most_pages: if deep { random.within(160, 300) } else { [20, 40, 80, 160][random.below(4)] },
            most_slots: if deep { 2000 } else { [100, 200, 500, 1000][random.below(4)] },
            calm: if deep { [40, 80, 150] } else { [5, 15, 40] }[random.below(3)],
            wanted_open: random.within(1, 4),
            wanted_pending: if deep { random.within(6, 16) } else { random.within(2, 12) },
            begins: 8,
            exact: false,
            ends: 40,
        }
    }

    /// Room for some pending updates in each of eight batches: 32 slots and 7 pages for each update.
    fn crowded(random: &mut Random) -> Temper {
        Temper {
            deep: true,
            most_pages: random.within(160, 320),
            most_slots: random.within(700, 1600),
            calm: [10, 20, 40][random.below(3)],
            wanted_open: MOST_BATCHES + 1,
            wanted_pending: random.within(10, 30),
            begins: 30,
            exact: false,
            ends: 40,
        }
    }

    fn largest(random: &mut Random) -> Temper {
        Temper {
            deep: true,
            most_pages: MOST_PAGES,
            most_slots: MOST_SLOTS,
            calm: 6,
            wanted_open: random.within(2, MOST_BATCHES + 1),
            wanted_pending: random.within(6, 16),
            begins: 15,
            exact: false,
            ends: 40,
        }
    }

    /// A first update needs 67 slots and 16 pages, and each one that is pending 32 and 7 more.
    fn edge(random: &mut Random) -> Temper {
        let pending = random.below(4);
        Temper {
            deep: false,
            most_pages: (15 + 7 * pending).max(16) + random.below(3),
            most_slots: [64, 66, 67, 68, 99, 100, 101, 131, 132, 133, 400][random.below(11)] + 32 * pending,
            calm: 20,
            wanted_open: random.within(1, 3),
            wanted_pending: pending + 1,
            begins: 20,
            exact: true,
            ends: 4,
        }
    }

    fn field(random: &mut Random) -> Temper {
        Temper {
            deep: false,
            most_pages: random.within(80, 160),
            most_slots: random.within(500, 900),
            calm: 5,
            wanted_open: random.within(1, 4),
            wanted_pending: random.within(1, 6),
            begins: 20,
            exact: false,
            ends: 2,
        }
    }
}
