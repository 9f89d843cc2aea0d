//! The pending rule: "pending records on a key are of one batch, alternate, a delete after an insert has its value, and
//! the newest agrees with the tree."

use super::{OpenBatches, Update};
use crate::layout::{Entry, Kind};
use crate::{Fault, Place, Refusal};
use std::collections::BTreeMap;

/// The slides are the entries of all leaves, by rising key.
pub fn obeys_pending_rule(open: &OpenBatches, slides: &[Entry]) -> Result<(), Fault> {
    let mut newest: BTreeMap<u32, (u32, Update)> = BTreeMap::new();
    for (batch, update) in by_rising_number(open) {
        let before = newest.insert(update.key, (batch, update));
        let Some((holder, older)) = before else {
            continue;
        };
        if holder != batch {
            return Err(broken(update.key, format!("batches {holder} and {batch} both have a pending update on it")));
        }
        if !may_follow(&older, &update) {
            let rule =
                format!("pending records {} and {} on it do not follow one another", older.number, update.number);
            return Err(broken(update.key, rule));
        }
    }
    match newest.values().find(|(_, update)| !agrees_with_tree(update, slides)) {
        Some((_, update)) => {
            Err(broken(update.key, format!("pending record {} does not agree with the leaves", update.number)))
        }
        None => Ok(()),
    }
}

fn broken(key: u32, rule: String) -> Fault {
    Fault::new(Refusal::Tree, Place::Key(key), rule)
}

fn by_rising_number(open: &OpenBatches) -> Vec<(u32, Update)> {
    let of_batch = |batch: &super::Batch| {
        let number = batch.number;
        batch.pending.iter().map(move |update| (number, *update)).collect::<Vec<_>>()
    };
    let mut updates: Vec<(u32, Update)> = open.list.iter().flat_map(of_batch).collect();
    updates.sort_by_key(|(_, update)| update.number);
    updates
}

fn may_follow(older: &Update, newer: &Update) -> bool {
    match (older.kind, newer.kind) {
        (Kind::Insert, Kind::Delete) => older.value == newer.value,
        (Kind::Delete, Kind::Insert) => true,
        _ => false,
    }
}

fn agrees_with_tree(update: &Update, slides: &[Entry]) -> bool {
    let found = slides.binary_search_by_key(&update.key, |slide| slide.key).ok().map(|place| slides[place]);
    match update.kind {
        Kind::Insert => found == Some(Entry::new(update.key, update.value)),
        _ => found.is_none(),
    }
}
