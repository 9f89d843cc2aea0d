//! Demand 2 on random traces: looking up, stepping to the next slide or the one before, adding and removing answer as a
//! sorted list of slides would, under the rules on held keys, also of batches that took back what they did after a mark.

mod common;

use common::each_event;
use reference::bench::{run, Event, Instrument, Shape};
use reference::calls::{sound, Answer, Call};
use reference::Refusal;
use std::collections::BTreeMap;

/// A sorted list of slides as the open batches left it, and what each batch changed, to take it back.
#[derive(Default)]
struct List {
    slides: BTreeMap<u32, u32>,
    /// Of each open batch, oldest first.
    changes: BTreeMap<u32, Vec<Change>>,
}

/// A change with its record's number, its key and the value there before.
struct Change {
    number: u32,
    key: u32,
    before: Option<u32>,
}

impl List {
    fn set(&mut self, key: u32, value: Option<u32>) -> Option<u32> {
        match value {
            Some(value) => self.slides.insert(key, value),
            None => self.slides.remove(&key),
        }
    }

    fn change(&mut self, batch: u32, key: u32, value: Option<u32>, after: &Instrument) {
        let before = self.set(key, value);
        let number = after.desk.last_of(batch).expect("the batch is open");
        self.changes.entry(batch).or_default().push(Change { number, key, before });
    }

    /// Take back what a batch changed after its mark.
    fn take_back(&mut self, batch: u32, mark: u32) {
        let changes = self.changes.entry(batch).or_default();
        let later = changes.split_off(changes.partition_point(|change| change.number <= mark));
        for Change { key, before, .. } in later.into_iter().rev() {
            self.set(key, before);
        }
    }

    fn held(&self, batch: u32, keys: std::ops::RangeInclusive<u32>) -> bool {
        let others = self.changes.iter().filter(|(other, _)| **other != batch);
        others.flat_map(|(_, changes)| changes).any(|change| keys.contains(&change.key))
    }

    /// What a call on a key answers, room aside.
    fn answer(&self, call: Call) -> Option<Result<Answer, Refusal>> {
        let (Call::Fetch { batch, key } | Call::Insert { batch, key, .. } | Call::Delete { batch, key }) = call else {
            return self.answer_step(call);
        };
        let found = self.slides.get(&key).copied();
        Some(match call {
            Call::Insert { key: 0, .. } => Err(Refusal::Unread),
            _ if !self.changes.contains_key(&batch) => Err(Refusal::NoBatch),
            _ if self.held(batch, key..=key) => Err(Refusal::Held),
            Call::Fetch { .. } => found.map(Answer::Value).ok_or(Refusal::Absent),
            Call::Insert { .. } => found.map_or(Ok(Answer::Done), |_| Err(Refusal::Present)),
            _ => found.map(|_| Answer::Done).ok_or(Refusal::Absent),
        })
    }

    fn answer_step(&self, call: Call) -> Option<Result<Answer, Refusal>> {
        let (batch, found, held) = match call {
            Call::Next { batch, key } => {
                let found = self.slides.iter().find(|(slide, _)| **slide > key);
                let up_to = found.map_or(u32::MAX, |(slide, _)| *slide);
                (batch, found, key < u32::MAX && self.held(batch, key + 1..=up_to))
            }
            Call::Previous { batch, key } => {
                let found = self.slides.range(..key).next_back();
                let down_to = found.map_or(0, |(slide, _)| *slide);
                (batch, found, key > 0 && self.held(batch, down_to..=key - 1))
            }
            _ => return None,
        };
        Some(match found {
            _ if !self.changes.contains_key(&batch) => Err(Refusal::NoBatch),
            _ if held => Err(Refusal::Held),
            Some((key, value)) => Ok(Answer::Slide { key: *key, value: *value }),
            None => Err(Refusal::Absent),
        })
    }

    fn take(&mut self, event: &Event, after: &Instrument) {
        match (event.call, event.finished()) {
            (_, Some(Answer::Batch(batch))) => drop(self.changes.insert(batch, Vec::new())),
            (Call::Insert { batch, key, value }, Some(_)) => self.change(batch, key, Some(value), after),
            (Call::Delete { batch, key }, Some(_)) => self.change(batch, key, None, after),
            (Call::Commit { batch }, Some(_)) => drop(self.changes.remove(&batch)),
            (Call::Return { batch, mark }, Some(_)) => self.take_back(batch, mark),
            (Call::Abort { batch }, Some(_)) => {
                self.take_back(batch, 0);
                self.changes.remove(&batch);
            }
            // What these leave is demand 3's matter, and the test of recovery's.
            (made, Some(_)) if made.starts_anew() => *self = List::of(after),
            _ => {}
        }
    }

    fn of(instrument: &Instrument) -> List {
        let slides = sound(&instrument.areas, &instrument.desk).expect("sound").slides;
        List { slides: slides.iter().map(|slide| (slide.key, slide.value)).collect(), changes: BTreeMap::new() }
    }
}

fn is_for_room(answer: Result<Answer, Refusal>) -> bool {
    matches!(answer, Err(Refusal::SlotsShort | Refusal::PagesShort))
}

#[test]
fn a_sorted_list_of_slides_gives_the_same_answers() {
    let (mut compared, mut returns) = (0, 0);
    for seed in 300..309 {
        let mut list = List::default();
        each_event(&run(Shape::Plain, seed, 1000), |before, event, after| {
            let is_sound = before.areas.lengths_are_right() && sound(&before.areas, &before.desk).is_some();
            if let Some(expected) = list.answer(event.call).filter(|_| is_sound) {
                // Only a call that the list would carry out may want for room.
                let answer = if is_for_room(event.answer) { Ok(Answer::Done) } else { event.answer };
                assert_eq!(answer, expected, "{:?}", event.call);
                compared += 1;
            }
            list.take(event, after);
            let undoes = matches!(event.call, Call::Return { .. }) && before.desk != after.desk;
            returns += usize::from(undoes && event.finished().is_some());
            if let Some(left) = event.finished().and_then(|_| sound(&after.areas, &after.desk)) {
                let slides = left.slides.iter().map(|slide| (slide.key, slide.value));
                assert!(slides.eq(list.slides.iter().map(|(key, value)| (*key, *value))), "the leaves are the list");
            }
        });
    }
    assert!(compared > 4000 && returns > 100, "{compared} answers, {returns} returns that undo something");
}
