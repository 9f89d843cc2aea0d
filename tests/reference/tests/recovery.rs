//! Demand 3, tried on random traces: whatever the power does, a further restart finishes or stops for want of places,
//! redo alone gives a tree that obeys the tree rules, and the leaves hold exactly the plain book's slides.

mod common;

use common::each_event;
use reference::bench::{run, Book, Event, Instrument, Shape};
use reference::calls::{call, redo_alone, sound, Answer, Call, Outcome};
use reference::layout::{Areas, Desk, Kind, Record};
use reference::log::Work;
use reference::sizes::MOST_PAGES;
use reference::tree::slides_of;
use reference::Refusal;

fn restart(areas: &Areas) -> Outcome {
    call(areas, &Desk::empty(), Call::Restart)
}

/// A restart of the stored image, given right lengths and not cut.
fn check_image(areas: &Areas, book: &Book, seen: &mut Seen) {
    let image = areas.with_right_lengths();
    let (redone, _) = redo_alone(&image).expect("redo never meets damage");
    assert!(slides_of(&redone.pages).is_ok(), "redo alone gives a tree by the rules");
    seen.partly += usize::from(has_partly_taken_back(&redone));
    let outcome = restart(&image);
    match outcome.answer {
        Ok(_) => check_slides(&outcome, book),
        Err(refusal @ (Refusal::SlotsShort | Refusal::PagesShort)) => {
            let larger = restart(&image.grown(MOST_PAGES, image.slot_count() + 2000));
            check_slides(&larger, book);
            assert_eq!(Some(refusal), first_shortage(&image, redone.pages.free_count(), &larger));
        }
        Err(refusal) => panic!("restart called the image damaged: {refusal:?}"),
    }
}

/// Whether an open case has no abort mark, something undone and something pending.
fn has_partly_taken_back(work: &Work) -> bool {
    let is_undo = |record: &&Record| matches!(record.kind, Kind::UndoInsert | Kind::UndoDelete);
    let undone: Vec<u32> = work.log.records.iter().filter(is_undo).map(|record| record.batch).collect();
    work.open.list.iter().any(|open| !open.marked && !open.pending.is_empty() && undone.contains(&open.number))
}

/// The leaves hold the book's slides, keys and values.
fn check_slides(outcome: &Outcome, book: &Book) {
    let left = sound(&outcome.areas, &outcome.desk).expect("a finished restart leaves sound areas");
    let slides = left.slides.iter().map(|slide| (slide.key, slide.value));
    assert!(slides.eq(book.slides.iter().map(|(key, value)| (*key, *value))), "the leaves are the book");
}

/// Where the lent areas end in the records that the same restart writes in larger ones. Which page is taken differs,
/// but not when one is.
fn first_shortage(image: &Areas, free: usize, larger: &Outcome) -> Option<Refusal> {
    let mut free = free;
    let records = sound(&larger.areas, &larger.desk)?.work.log.records;
    let new = &records[records.len() - larger.stores.len()..];
    for record in new {
        if record.own as usize > image.slot_count() {
            return Some(Refusal::SlotsShort);
        }
        match record.kind {
            Kind::Split | Kind::Raise if free == 0 => return Some(Refusal::PagesShort),
            Kind::Split | Kind::Raise => free -= 1,
            Kind::Merge | Kind::Lower => free += 1,
            _ => {}
        }
    }
    None
}

/// Every other place at which this call could have been cut. With no store it leaves the image of the call before; with
/// all of them, that of the call itself.
fn check_every_cut(before: &Instrument, made: Call, book: &Option<Book>, seen: &mut Seen) {
    let outcome = before.outcome_of(made);
    let stores = outcome.stores.len();
    for carried_out in 1..stores {
        let event = Event { call: made, answer: outcome.answer, was_cut: true, carried_out, stores };
        let mut cut = before.clone();
        cut.pull_plug(&outcome, carried_out);
        let Some(book) = Book::after(book.clone(), &event, &cut.desk) else {
            return;
        };
        check_image(&cut.areas, &book, seen);
    }
}

/// "A refusal changes nothing", but for those that start anew; a call that passes leaves sound areas.
fn check_areas(before: &Instrument, event: &Event, after: &Instrument) {
    match (event.was_cut, event.answer) {
        (false, Ok(_)) => {
            assert!(sound(&after.areas, &after.desk).is_some(), "{:?} leaves sound areas", event.call);
        }
        (false, Err(_)) if !event.call.starts_anew() => {
            assert!(before == after, "{:?} was refused and changes nothing", event.call);
        }
        _ => {}
    }
}

fn same_image(before: &Instrument, after: &Instrument) -> bool {
    before.areas.stable_pages == after.areas.stable_pages && before.areas.stable_log == after.areas.stable_log
}

#[derive(Default)]
struct Seen {
    cuts: usize,
    restarts: usize,
    cut_restarts: usize,
    images: usize,
    /// Images in which an open case has been taken back in part.
    partly: usize,
}

fn check_run(shape: Shape, seed: u64, calls: usize, seen: &mut Seen) {
    let run = run(shape, seed, calls);
    let mut book = run.book.clone();
    each_event(&run, |before, event, after| {
        check_every_cut(before, event.call, &book, seen);
        let slides_before = book.as_ref().map(|book| book.slides.clone());
        book = Book::after(book.take(), event, &after.desk);
        let slides = book.as_ref().map(|book| &book.slides);
        // The same image and the same slides would only be looked at twice.
        if !same_image(before, after) || slides_before.as_ref() != slides {
            book.iter().for_each(|book| check_image(&after.areas, book, seen));
            seen.images += 1;
        }
        check_areas(before, event, after);
        seen.cuts += usize::from(event.was_cut);
        seen.cut_restarts += usize::from(event.was_cut && event.call == Call::Restart);
        seen.restarts += usize::from(matches!(event.finished(), Some(Answer::Restarted { .. })));
    });
}

fn check_seeds(shape: Shape, seeds: std::ops::Range<u64>, calls: usize) {
    let mut seen = Seen::default();
    for seed in seeds {
        check_run(shape, seed, calls, &mut seen);
    }
    // A trace without cuts would check nothing.
    assert!(seen.cuts > 50 && seen.restarts > 20 && seen.cut_restarts > 20 && seen.images > 500);
    assert!(seen.partly > 20, "{} images with a case partly taken back", seen.partly);
}

#[test]
fn no_cut_loses_or_invents_a_slide_in_short_runs() {
    check_seeds(Shape::Plain, 100..120, 300);
}

#[test]
fn no_cut_loses_or_invents_a_slide_in_long_runs() {
    check_seeds(Shape::Plain, 200..205, 1500);
}

#[test]
fn no_cut_loses_or_invents_a_slide_in_runs_from_the_field() {
    check_seeds(Shape::Field, 250..270, 200);
}
