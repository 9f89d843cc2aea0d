//! The maker of a trace: what it has written so far, and the instrument that ran it.

use super::keys::Keys;
use super::temper::{Shape, Temper};
use crate::bench::instrument::lengths;
use crate::bench::{Command, Event, Instrument, Random};
use crate::calls::{pages_suffice, slots_suffice, sound, Answer, Call, Sound};
use crate::layout::{Kind, Record, Store};
use crate::log::Batch;
use crate::sizes::{BATCH_RECORDS, UPDATE_PAGES, UPDATE_RECORDS};

pub struct Maker {
    pub random: Random,
    pub instrument: Instrument,
    /// The working areas taken apart, where they are sound.
    pub sound: Option<Sound>,
    pub commands: Vec<Command>,
    /// The marks that were answered, each with its batch; also those of batches that have ended.
    pub marks: Vec<(u32, u32)>,
    pub calls_left: usize,
    pub keys: Keys,
    pub temper: Temper,
}

/// A call that only looks changes nothing, and neither does a refusal but for those that start anew.
fn may_have_changed(event: &Event) -> bool {
    match event.call {
        _ if event.was_cut => true,
        made if made.starts_anew() => true,
        Call::Fetch { .. } | Call::Next { .. } | Call::Previous { .. } | Call::Mark { .. } => false,
        _ => event.answer.is_ok(),
    }
}

/// How many stores there are up to each one of a record of such a kind, itself included.
pub fn stores_of(stores: &[Store], wanted: fn(Kind) -> bool) -> Vec<usize> {
    let is_wanted = |store: &Store| match store {
        Store::Slot { bytes, .. } => Record::read(bytes).is_some_and(|record| wanted(record.kind)),
        Store::Page { .. } => false,
    };
    (1..=stores.len()).filter(|up_to| is_wanted(&stores[up_to - 1])).collect()
}

impl Maker {
    pub fn new(mut random: Random, calls: usize, shape: Shape) -> Maker {
        let temper = Temper::new(&mut random, shape);
        let keys = Keys::new(&mut random, temper.most_pages, temper.ends);
        Maker {
            random,
            instrument: Instrument::default(),
            sound: None,
            commands: Vec::new(),
            marks: Vec::new(),
            calls_left: calls,
            keys,
            temper,
        }
    }

    /// Go on from a register that is there already.
    pub fn start_from(&mut self, instrument: Instrument) {
        self.instrument = instrument;
        self.look();
    }

    pub fn make(&mut self, call: Call) -> Event {
        self.commands.push(Command::Call(call));
        self.calls_left = self.calls_left.saturating_sub(1);
        let event = self.instrument.make(call);
        if may_have_changed(&event) {
            self.look();
        }
        if let (Call::Mark { batch }, Some(Answer::Mark(mark))) = (call, event.finished()) {
            self.marks.push((batch, mark));
        }
        event
    }

    /// Make a call and pull the plug at one of its stores, before the first or after the last.
    pub fn make_cut(&mut self, call: Call) -> Event {
        let stores = self.instrument.outcome_of(call).stores;
        // A tree change that is stored without what should follow it is the harder case.
        let after_tree_changes = stores_of(&stores, |kind| kind >= Kind::Split);
        let beyond = if self.random.once_in(10) { 3 } else { 0 };
        let anywhere = self.random.within(0, stores.len() + beyond);
        let cut = match self.random.pick(&after_tree_changes) {
            Some(after) if self.random.once_in(2) => after,
            _ => anywhere,
        };
        self.cut_at(cut, call)
    }

    pub fn cut_at(&mut self, stores: usize, call: Call) -> Event {
        self.run(Command::Cut(stores));
        self.make(call)
    }

    pub fn lend(&mut self, lengths: [usize; 4]) {
        self.run(Command::Lend(lengths));
        self.look();
    }

    pub fn lend_even(&mut self, pages: usize, slots: usize) {
        self.lend(lengths(pages, slots));
    }

    /// Commands that are no calls.
    pub fn run_all(&mut self, commands: &[Command]) {
        commands.iter().for_each(|command| self.run(*command));
        self.look();
    }

    fn run(&mut self, command: Command) {
        self.commands.push(command);
        self.instrument.run(&command);
    }

    fn look(&mut self) {
        let Instrument { areas, desk, .. } = &self.instrument;
        self.sound = areas.lengths_are_right().then(|| sound(areas, desk)).flatten();
    }

    pub fn page_count(&self) -> usize {
        self.instrument.areas.page_count()
    }

    pub fn slot_count(&self) -> usize {
        self.instrument.areas.slot_count()
    }

    pub fn batches(&self) -> &[Batch] {
        self.sound.as_ref().map_or(&[], |sound| &sound.work.open.list)
    }

    pub fn pending_count(&self) -> usize {
        self.batches().iter().map(|batch| batch.pending.len()).sum()
    }

    /// A batch that is open, if any is.
    pub fn some_batch(&mut self) -> Option<u32> {
        let open: Vec<u32> = self.batches().iter().map(|batch| batch.number).collect();
        self.random.pick(&open)
    }

    /// Whether an open batch is not refused an update for want of slots or pages.
    pub fn update_fits(&self) -> bool {
        self.sound.as_ref().is_some_and(|sound| {
            slots_suffice(&sound.work, UPDATE_RECORDS, 1, 0) && pages_suffice(&sound.work, UPDATE_PAGES, 1)
        })
    }

    /// Whether one more batch could still make an update if all others were committed.
    pub fn has_room(&self) -> bool {
        self.sound.as_ref().is_some_and(|sound| {
            let open = sound.work.open.list.len() + 1;
            let records = sound.work.log.records.len() + open + 2 * UPDATE_RECORDS + BATCH_RECORDS * open;
            records <= sound.work.log.slots && 2 * UPDATE_PAGES <= sound.work.pages.free_count()
        })
    }
}
