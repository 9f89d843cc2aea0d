//! Two batches on one place: what the first changes is still pending while the second moves the pages around it and
//! commits. Taking the first back then has to search from the root, and to change the tree again.

use super::maker::Maker;
use super::trouble;
use crate::calls::{Answer, Call};

/// How many updates the pending batch makes, and how many the other.
const PENDING: usize = 4;
const AROUND: usize = 10;

pub fn cross_batches(maker: &mut Maker) {
    let (Some(first), Some(second)) = (begin(maker), begin(maker)) else {
        return;
    };
    let thin_out = maker.random.once_in(2);
    let from = maker.keys.any(&mut maker.random);
    let pending = (0..PENDING).all(|_| update_near(maker, first, from, thin_out));
    let _ = pending && (0..AROUND).all(|_| update_near(maker, second, from, !thin_out));
    maker.make(Call::Commit { batch: second });
    match maker.random.below(5) {
        0 => drop(maker.make(Call::Abort { batch: first })),
        1 => drop(maker.make(Call::Return { batch: first, mark: first })),
        2 => trouble::cut_at_rest(maker),
        3 => {
            trouble::cut_at_rest(maker);
            trouble::wear_out(maker);
        }
        _ => {}
    }
}

pub fn begin(maker: &mut Maker) -> Option<u32> {
    match maker.make(Call::Begin).answer {
        Ok(Answer::Batch(batch)) => Some(batch),
        _ => None,
    }
}

/// Put in the next key above that is not there, or take out the next one above that is; held ones aside, and key 0, which
/// is not put in. False if there is none, or no room.
pub fn update_near(maker: &mut Maker, batch: u32, from: u32, put_in: bool) -> bool {
    let Some(sound) = &maker.sound else {
        return false;
    };
    let held = |key: u32| sound.work.open.list.iter().any(|open| open.pending.iter().any(|update| update.key == key));
    let is_there = |key: u32| sound.slides.binary_search_by_key(&key, |slide| slide.key).is_ok();
    let call = if put_in {
        let key = maker.keys.all_from(from).find(|key| *key != 0 && !is_there(*key) && !held(*key));
        key.map(|key| Call::Insert { batch, key, value: maker.random.number() })
    } else {
        let key = sound.slides.iter().map(|slide| slide.key).find(|key| *key >= from && !held(*key));
        key.map(|key| Call::Delete { batch, key })
    };
    call.is_some_and(|call| maker.make(call).answer.is_ok())
}
