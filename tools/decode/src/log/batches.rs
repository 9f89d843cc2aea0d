//! The batch chain: which batches a log leaves open, and what each has pending. (01's batch is a transaction.)

use crate::layout::{Desk, Kind, Record, Row};
use crate::sizes::MOST_BATCHES;
use crate::{Fault, Place, Refusal};

/// An insert or delete of an open batch that is not yet undone.
#[derive(Clone, Copy, Debug, PartialEq, Eq)]
pub struct Update {
    pub number: u32,
    pub kind: Kind,
    pub key: u32,
    pub value: u32,
}

#[derive(Clone, Debug, PartialEq, Eq)]
pub struct Batch {
    pub number: u32,
    pub last: u32,
    /// Oldest first; undo takes them from the end.
    pub pending: Vec<Update>,
    /// Whether the batch has its abort mark.
    pub marked: bool,
}

impl Batch {
    /// The newest pending update, 0 if none.
    pub fn next_to_undo(&self) -> u32 {
        self.pending.last().map_or(0, |update| update.number)
    }
}

/// By rising batch number.
#[derive(Clone, Debug, Default, PartialEq, Eq)]
pub struct OpenBatches {
    pub list: Vec<Batch>,
}

impl OpenBatches {
    /// Refused (4) at the first record that breaks the chain, or after which more than eight batches are open.
    pub fn after(records: &[Record]) -> Result<OpenBatches, Fault> {
        let mut open = OpenBatches::default();
        for record in records {
            let fault = |rule| Fault::new(Refusal::Log, Place::Slot(record.own as usize), rule);
            open.follow(record).map_err(fault)?;
        }
        Ok(open)
    }

    pub fn find(&self, number: u32) -> Option<&Batch> {
        self.list.iter().find(|batch| batch.number == number)
    }

    pub fn pending_count(&self) -> usize {
        self.list.iter().map(|batch| batch.pending.len()).sum()
    }

    /// Take one more record. Else the rule by which the chain forbids it.
    pub fn follow(&mut self, record: &Record) -> Result<(), String> {
        if record.kind >= Kind::Split {
            return Ok(());
        }
        if record.kind == Kind::Begin {
            self.list.push(Batch { number: record.batch, last: record.own, pending: Vec::new(), marked: false });
            let few = self.list.len() <= MOST_BATCHES;
            return if few { Ok(()) } else { Err("with it nine batches are open".to_string()) };
        }
        let Some(place) = self.list.iter().position(|batch| batch.number == record.batch) else {
            return Err(format!("batch {} is not open there", record.batch));
        };
        follow_batch(&mut self.list[place], record)?;
        if matches!(record.kind, Kind::Commit | Kind::End) {
            self.list.remove(place);
        }
        Ok(())
    }

    /// The desk that this log makes.
    pub fn desk(&self, written: u32, stored: u32) -> Desk {
        let mut desk = Desk { written, stored, ..Desk::empty() };
        for (row, batch) in desk.rows.iter_mut().zip(&self.list) {
            *row = Row {
                batch: batch.number,
                last: batch.last,
                next_to_undo: batch.next_to_undo(),
                pending: batch.pending.len() as u32,
            };
        }
        desk
    }
}

/// One more record of an open batch, its begin aside.
fn follow_batch(batch: &mut Batch, record: &Record) -> Result<(), String> {
    if matches!(record.kind, Kind::UndoInsert | Kind::UndoDelete) {
        undo_newest(batch, record)?;
        batch.last = record.own;
        return Ok(());
    }
    if record.previous != batch.last {
        return Err(format!("it names {} as its batch's record before it, which is {}", record.previous, batch.last));
    }
    if batch.marked && record.kind != Kind::End {
        return Err(format!("a record of kind {} follows its batch's abort mark", record.kind.name()));
    }
    if record.kind == Kind::End && !batch.pending.is_empty() {
        return Err(format!("it ends a batch that still has {} pending", batch.pending.len()));
    }
    match record.kind {
        Kind::Insert | Kind::Delete => batch.pending.push(update_of(record)),
        Kind::AbortMark => batch.marked = true,
        _ => {}
    }
    batch.last = record.own;
    Ok(())
}

fn undo_newest(batch: &mut Batch, record: &Record) -> Result<(), String> {
    if !batch.pending.pop().is_some_and(|update| undoes(record, &update)) {
        return Err("it does not undo its batch's newest pending update".to_string());
    }
    if record.previous != batch.next_to_undo() {
        return Err(format!("it names {} as next to undo, which is {}", record.previous, batch.next_to_undo()));
    }
    Ok(())
}

fn update_of(record: &Record) -> Update {
    Update { number: record.own, kind: record.kind, key: record.key, value: record.second }
}

/// "4 and 5 as 2 and 3, 4 without value."
fn undoes(record: &Record, update: &Update) -> bool {
    let same = match record.kind {
        Kind::UndoInsert => update.kind == Kind::Insert,
        _ => update.kind == Kind::Delete && update.value == record.second,
    };
    same && update.key == record.key
}
