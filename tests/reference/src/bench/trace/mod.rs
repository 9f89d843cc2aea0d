//! Random runs in the vectors' format, the same for the same seed.
//!
//! The maker runs the model beside what it writes, so that its batches, keys and pages are mostly ones that exist. Trees
//! grow and shrink again, several batches are open at once and take back what they did after a mark, calls are refused on
//! purpose, power fails at every kind of store and in restarts, the areas grow, and registers are formatted and loaded anew.

mod aged;
mod beside;
mod crossing;
mod damage;
mod everyday;
mod field;
mod keys;
mod loading;
mod maker;
mod temper;
mod trays;
mod trouble;

pub use temper::Shape;

use super::{Book, Command, Instrument, Random};
use crate::sizes::{MOST_PAGES, MOST_SLOTS};
use aged::aged;
use field::{ask_for_slide_0, from_the_field};
use maker::Maker;
use temper::Temper;

/// A run: the register that it starts from, the plain book of that register if it has been formatted, and the commands.
pub struct Run {
    pub start: Instrument,
    pub book: Option<Book>,
    pub commands: Vec<Command>,
}

/// A run with at least this many calls.
pub fn run(shape: Shape, seed: u64, calls: usize) -> Run {
    let mut maker = Maker::new(Random::new(seed), calls, shape);
    let (start, book) = started(&mut maker, shape);
    while maker.calls_left > 0 {
        if shape == Shape::Damaged && maker.random.once_in(12) {
            damage::damage(&mut maker);
        }
        if shape == Shape::Field && maker.random.once_in(6) {
            ask_for_slide_0(&mut maker);
        }
        step(&mut maker);
    }
    Run { start, book, commands: maker.commands }
}

/// What a run starts from: nothing, and then it is lent and formatted or loaded, or a register that is there already.
fn started(maker: &mut Maker, shape: Shape) -> (Instrument, Option<Book>) {
    let (register, slides) = match shape {
        Shape::Largest => {
            let left = maker.random.within(200, 2000);
            aged(&mut maker.random, MOST_PAGES, MOST_SLOTS, left)
        }
        Shape::Field => {
            let Temper { most_pages, most_slots, .. } = maker.temper;
            let pages = maker.random.within(most_pages / 2, most_pages);
            let slots = maker.random.within(most_slots / 2, most_slots);
            from_the_field(&mut maker.random, pages, slots)
        }
        _ => {
            trouble::first_start(maker);
            return (Instrument::default(), None);
        }
    };
    maker.start_from(register.clone());
    (register, Some(Book::of(slides)))
}

/// The commands of a run from nothing, of the kind that demand 3 speaks of.
pub fn trace(seed: u64, calls: usize) -> Vec<Command> {
    run(Shape::Plain, seed, calls).commands
}

/// The same, with damage.
pub fn damaged_trace(seed: u64, calls: usize) -> Vec<Command> {
    run(Shape::Damaged, seed, calls).commands
}

fn step(maker: &mut Maker) {
    if maker.sound.is_none() {
        trouble::recover(maker);
    } else if !maker.has_room() {
        trouble::renew(maker);
    } else {
        everyday::step(maker);
    }
}
