//! Registers written without asking what the calls ask: keys that other batches hold, reserves, and where in the tree a
//! change may be made. Rows and batch chain are kept, so that the finer rules decide what such a register is.

use super::Random;
use crate::calls::{undo_newest, write_update};
use crate::layout::{Entry, Kind, Pages, Record};
use crate::log::{Batch, Update, Work};
use crate::sizes::{FEWEST_ENTRIES, MOST_BATCHES, MOST_ENTRIES, ROOT, SPLIT_KEEPS};
use crate::tree::change;
use crate::Refusal;
use std::collections::BTreeMap;

pub struct Careless {
    pub work: Work,
    /// The pages as a store at some moments would have had them, first and last among them.
    pub moments: Vec<Pages>,
    /// What stands in the leaves while the tree is whole.
    slides: BTreeMap<u32, u32>,
    /// How many keys there are: few, so that batches meet on them, or enough for a tree.
    keys: usize,
}

/// So many steps of open batches over some committed slides, and sometimes changes of the tree at any place.
pub fn careless(random: &mut Random) -> Careless {
    let work = Work::formatted(random.within(30, 60), 900);
    let keys = [6, 40, 200][random.below(3)];
    let mut careless = Careless { moments: vec![work.pages.stored()], work, slides: BTreeMap::new(), keys };
    let steps = random.within(3, 40);
    let _ = careless.fill(random).and_then(|()| (0..steps).try_for_each(|_| careless.step(random)));
    for _ in 0..[0, 0, 1, 3][random.below(4)] {
        let _ = careless.change_tree(random);
    }
    if random.once_in(10) {
        let _ = careless.thin_root(random);
    }
    careless.moments.push(careless.work.pages.stored());
    careless
}

impl Careless {
    fn begin(&mut self) -> Result<u32, Refusal> {
        self.work.write(Record::new(Kind::Begin))?;
        Ok(self.work.log.last_number())
    }

    /// A committed batch: none, some or many slides.
    fn fill(&mut self, random: &mut Random) -> Result<(), Refusal> {
        let batch = self.begin()?;
        for _ in 0..[0, 15, 60, 150][random.below(4)] {
            self.update(random, batch)?;
        }
        self.work.write_about_batch(Kind::Commit, batch)
    }

    fn step(&mut self, random: &mut Random) -> Result<(), Refusal> {
        let Some(batch) = self.some_batch(random) else {
            return self.begin().map(drop);
        };
        match random.below(16) {
            0..=2 if self.work.open.list.len() < MOST_BATCHES => self.begin().map(drop),
            3 if !batch.marked => self.work.write_about_batch(Kind::Commit, batch.number),
            4 if !batch.marked => self.work.write_about_batch(Kind::AbortMark, batch.number),
            5 if batch.pending.is_empty() => self.work.write_about_batch(Kind::End, batch.number),
            6 | 7 => self.undo(&batch),
            8 => {
                self.moments.push(self.work.pages.stored());
                Ok(())
            }
            _ if !batch.marked => self.update(random, batch.number),
            _ => self.undo(&batch),
        }
    }

    fn some_batch(&self, random: &mut Random) -> Option<Batch> {
        let places: Vec<usize> = (0..self.work.open.list.len()).collect();
        random.pick(&places).map(|place| self.work.open.list[place].clone())
    }

    /// Put in a key that is not there, or take out one that is, whoever holds it.
    fn update(&mut self, random: &mut Random, batch: u32) -> Result<(), Refusal> {
        let key = random.below(self.keys) as u32;
        let there = self.slides.get(&key).map(|value| Entry::new(key, *value));
        match there {
            Some(slide) if random.once_in(2) => {
                write_update(&mut self.work, batch, Kind::Delete, slide)?;
                self.slides.remove(&key);
            }
            Some(_) => {}
            None => {
                let value = random.below(3) as u32;
                write_update(&mut self.work, batch, Kind::Insert, Entry::new(key, value))?;
                self.slides.insert(key, value);
            }
        }
        Ok(())
    }

    /// Undo a batch's newest update, marked or not, where the tree still has what it left.
    fn undo(&mut self, batch: &Batch) -> Result<(), Refusal> {
        let Some(newest) = batch.pending.last().filter(|newest| self.still_stands(newest)) else {
            return Ok(());
        };
        undo_newest(&mut self.work, batch.number, *newest)?;
        match newest.kind {
            Kind::Insert => self.slides.remove(&newest.key),
            _ => self.slides.insert(newest.key, newest.value),
        };
        Ok(())
    }

    fn still_stands(&self, update: &Update) -> bool {
        (update.kind == Kind::Insert) == self.slides.contains_key(&update.key)
    }

    /// A root beside a sibling, with so few entries as no record leaves there.
    fn thin_root(&mut self, random: &mut Random) -> Result<(), Refusal> {
        if self.work.page(ROOT).entries.len() > SPLIT_KEEPS {
            change::split(&mut self.work, ROOT)?;
        }
        self.work.pages.list[ROOT].entries.truncate(random.within(1, FEWEST_ENTRIES));
        Ok(())
    }

    /// A change of the tree where its record can be written, wherever the rules want it or not.
    fn change_tree(&mut self, random: &mut Random) -> Result<(), Refusal> {
        let used: Vec<usize> =
            (ROOT..self.work.pages.count()).filter(|page| self.work.pages.map.is_used(*page)).collect();
        let page = random.pick(&used).filter(|_| !random.once_in(3)).unwrap_or(ROOT);
        let (entries, right) = (self.work.page(page).entries.len(), self.work.page(page).right);
        let beside = if right == 0 { 0 } else { self.work.page(right).entries.len() };
        let place = random.below(entries.max(1));
        let is_index = self.work.page(page).is_index();
        match random.below(7) {
            0 if entries > SPLIT_KEEPS => change::split(&mut self.work, page),
            1 if is_index && entries < MOST_ENTRIES => change::link(&mut self.work, page, place),
            2 if is_index && place + 1 < entries => change::unlink(&mut self.work, page, place),
            3 if right != 0 && entries + beside <= MOST_ENTRIES => change::merge(&mut self.work, page, right),
            4 if entries > 0 && beside > 0 => change::redistribute(&mut self.work, page, right),
            5 => change::raise(&mut self.work),
            6 if self.work.page(ROOT).is_index() => change::lower(&mut self.work),
            _ => Ok(()),
        }
    }
}
