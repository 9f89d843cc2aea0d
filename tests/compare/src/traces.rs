//! Random traces: each call by the library and by the model on what the last one left, and demand 3 on every stored image
//! that the calls leave, wherever the power fails.

use crate::beside::Beside;
use crate::difference::Difference;
use crate::images::Images;
use crate::tally::Tally;
use reference::bench::{run, Book, Command, Event, Instrument, Random, Run, Shape};
use reference::calls::{sound, Call, Outcome};
use reference::layout::Desk;
use reference::Refusal;

/// What was compared.
#[derive(Default)]
pub struct Seen {
    pub tally: Tally,
    /// How many of the calls were restarts of stored images, beside the calls of the runs themselves.
    pub images: usize,
    pub cuts: usize,
}

impl Seen {
    pub fn add(&mut self, other: &Seen) {
        self.tally.add(&other.tally);
        self.images += other.images;
        self.cuts += other.cuts;
    }
}

impl std::fmt::Display for Seen {
    fn fmt(&self, to: &mut std::fmt::Formatter<'_>) -> std::fmt::Result {
        let (calls, images, cuts) = (self.tally.calls(), self.images, self.cuts);
        write!(to, "{calls} calls, {images} of them restarts of stored images, and {cuts} cut")
    }
}

/// Compare one run. A difference says how to make the run again, and the number of the call.
pub fn compare_run(shape: Shape, seed: u64, calls: usize) -> Result<Seen, Difference> {
    let Run { start, book, commands } = run(shape, seed, calls);
    let mut course = Course::new(start, book, seed);
    let mut call = 0;
    for command in &commands {
        call += usize::from(matches!(command, Command::Call(_)));
        // Of a load's line the beginning says enough.
        let place = || format!("run {} {seed} {calls}, call {call} ({:.100})", shape.name(), command.to_string());
        course.follow(command).map_err(|difference| difference.at(place()))?;
    }
    Ok(course.seen())
}

/// How many bytes of images are restarted for one call: all of its images in small areas, some in large ones.
const IMAGE_BYTES: usize = 3_000_000;

struct Course {
    model: Instrument,
    beside: Beside,
    images: Images,
    random: Random,
    /// None before the first finished formatting or loading, after damage, and after one that was cut.
    book: Option<Book>,
    /// Whether a finished call left the working areas and the desk, and nothing but calls and growth came since.
    left_sound: bool,
    cuts: usize,
}

impl Course {
    fn new(model: Instrument, book: Option<Book>, seed: u64) -> Course {
        let mut beside = Beside::new();
        beside.loan.set(&model.areas, &model.desk);
        let left_sound = model.areas.lengths_are_right() && sound(&model.areas, &model.desk).is_some();
        Course { model, beside, images: Images::new(seed), random: Random::new(seed), book, left_sound, cuts: 0 }
    }

    fn follow(&mut self, command: &Command) -> Result<(), Difference> {
        if let Command::Call(made) = *command {
            return self.make(made);
        }
        self.model.run(command);
        self.beside.loan.set(&self.model.areas, &self.model.desk);
        match command {
            Command::Damage { .. } => (self.book, self.left_sound) = (None, false),
            // What is stored is as it was.
            Command::DamageDesk { .. } => self.left_sound = false,
            Command::Lend(_) => self.check_image()?,
            _ => {}
        }
        Ok(())
    }

    fn make(&mut self, made: Call) -> Result<(), Difference> {
        let outcome = self.beside.go_on(&self.model.areas, &self.model.desk, made)?;
        if self.left_sound && outcome.answer == Err(Refusal::Unsound) {
            return Err(Difference::new("11 on what a finished call left, by the library and the model"));
        }
        self.check_cuts(made, &outcome)?;
        let event = self.model.take(made, outcome);
        self.book = Book::after(self.book.take(), &event, &self.model.desk);
        self.left_sound = leaves_sound(&event, self.left_sound);
        if event.was_cut {
            self.cuts += 1;
            self.beside.loan.set(&self.model.areas, &self.model.desk);
        }
        if made.is_formatting() {
            self.check_image()?;
        }
        Ok(())
    }

    /// The image as it stands.
    fn check_image(&mut self) -> Result<(), Difference> {
        match &self.book {
            Some(book) => self.images.check(&self.model.areas, book),
            None => Ok(()),
        }
    }

    /// The images that a call leaves when it is cut after each of its stores. A cut formatting or loading lies
    /// outside demand 3.
    fn check_cuts(&mut self, made: Call, outcome: &Outcome) -> Result<(), Difference> {
        let (Some(book), false) = (&self.book, made.is_formatting() || outcome.stores.is_empty()) else {
            return Ok(());
        };
        let mut image = self.model.areas.clone();
        let stores = outcome.stores.len();
        let bytes = stores * (image.stable_pages.len() + image.stable_log.len());
        for (carried_out, store) in (1..).zip(&outcome.stores) {
            image.carry_out(store);
            if carried_out < stores && !self.random.once_in(1 + bytes / IMAGE_BYTES) {
                continue;
            }
            let event = Event { call: made, answer: outcome.answer, was_cut: true, carried_out, stores };
            // Of a cut call the book notes no number, so the desk does not matter.
            let Some(book) = Book::after(Some(book.clone()), &event, &Desk::empty()) else {
                return Ok(());
            };
            let place = || format!("cut after {carried_out} of {stores} stores");
            self.images.check(&image, &book).map_err(|difference| difference.at(place()))?;
        }
        Ok(())
    }

    fn seen(self) -> Seen {
        let images = self.images.beside.tally;
        let mut seen = Seen { tally: self.beside.tally, images: images.calls(), cuts: self.cuts };
        seen.tally.add(&images);
        seen
    }
}

/// Whether the working areas and the desk are what a finished call left, after this event.
fn leaves_sound(event: &Event, before: bool) -> bool {
    match (event.call, event.answer) {
        _ if event.was_cut => false,
        (_, Ok(_)) => true,
        // These leave an empty desk.
        (made, Err(_)) if made.starts_anew() => false,
        (_, Err(_)) => before,
    }
}
