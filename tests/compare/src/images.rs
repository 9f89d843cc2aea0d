//! Demand 3 on a stored image: a restart of it finishes or stops for want of places, and where it finishes the leaves hold
//! exactly the slides of the cases whose commit record was stored. Such a restart may itself be cut, again and again.

use crate::beside::Beside;
use crate::difference::Difference;
use reference::bench::{Book, Random};
use reference::calls::{Call, Outcome};
use reference::layout::{Areas, Desk, Pages};
use reference::sizes::{MOST_PAGES, MOST_SLOTS};
use reference::tree::slides_of;
use reference::Refusal;

pub struct Images {
    pub beside: Beside,
    random: Random,
}

/// More slots than any restart of the traces' images adds.
const MORE_SLOTS: usize = 2000;

impl Images {
    pub fn new(seed: u64) -> Images {
        Images { beside: Beside::new(), random: Random::new(seed) }
    }

    /// Check an image, and now and then what its restart leaves of it when it is cut.
    pub fn check(&mut self, areas: &Areas, book: &Book) -> Result<(), Difference> {
        let mut image = areas.with_right_lengths();
        loop {
            let outcome = self.restart(&image)?;
            self.judge(&image, &outcome, book)?;
            if outcome.stores.is_empty() || !self.random.once_in(3) {
                return Ok(());
            }
            let last = self.random.below(outcome.stores.len());
            outcome.stores[..=last].iter().for_each(|store| image.carry_out(store));
            image.fill_working(self.random.number() as u8);
        }
    }

    fn restart(&mut self, image: &Areas) -> Result<Outcome, Difference> {
        let made = self.beside.try_on(image, &Desk::empty(), Call::Restart);
        made.map_err(|difference| difference.at("a restart of the stored image"))
    }

    fn judge(&mut self, image: &Areas, outcome: &Outcome, book: &Book) -> Result<(), Difference> {
        match outcome.answer {
            Ok(_) => self.leaves_are(book),
            Err(Refusal::SlotsShort | Refusal::PagesShort) => {
                let slots = (image.slot_count() + MORE_SLOTS).min(MOST_SLOTS);
                let larger = self.restart(&image.grown(MOST_PAGES, slots))?;
                match larger.answer {
                    Ok(_) => self.leaves_are(book),
                    Err(Refusal::SlotsShort) if slots == MOST_SLOTS => Ok(()),
                    Err(refusal) => {
                        Err(Difference::new(format!("a restart in larger areas answers {}", refusal.number())))
                    }
                }
            }
            Err(refusal) => {
                let number = refusal.number();
                Err(Difference::new(format!(
                    "a restart calls the stored image damaged ({number}), by the library and the model"
                )))
            }
        }
    }

    /// The leaves that the library left hold the book's slides, keys and values.
    fn leaves_are(&self, book: &Book) -> Result<(), Difference> {
        let slides = Pages::read_working(&self.beside.loan.areas[0]).and_then(|pages| slides_of(&pages));
        let Ok(slides) = slides else {
            return Err(Difference::new("a finished restart leaves no tree, by the library and the model"));
        };
        if slides.iter().map(|slide| (&slide.key, &slide.value)).eq(&book.slides) {
            return Ok(());
        }
        let (found, wanted) = (slides.len(), book.slides.len());
        Err(Difference::new(format!(
            "after a restart of the stored image the leaves are not the book's slides ({found} there, {wanted} in the book)"
        )))
    }
}
