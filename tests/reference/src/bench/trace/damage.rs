//! Damage in a trace: bits are turned or the stored image is forged, some calls meet that, and it is put right again. Or
//! it is the desk that is damaged, which a restart makes anew.

use super::maker::Maker;
use crate::bench::forge::{forge_image, forge_left_link, turn_a_bit};
use crate::bench::Command;
use crate::calls::Call;
use crate::layout::Areas;
use crate::sizes::DESK_NUMBERS;

pub fn damage(maker: &mut Maker) {
    if maker.random.once_in(8) {
        return damage_desk(maker);
    }
    let batch = maker.some_batch().unwrap_or_default();
    let areas = &maker.instrument.areas;
    let mut damaged = areas.clone();
    if maker.random.once_in(3) {
        turn_a_bit(&mut maker.random, &mut damaged);
    } else {
        let forge = if maker.random.once_in(6) { forge_left_link } else { forge_image };
        damaged = forge(&mut maker.random, areas).unwrap_or(damaged);
    }
    let differences = differences(areas, &damaged);
    maker.run_all(&differences);
    if maker.random.once_in(2) {
        some_calls(maker, batch);
    }
    // Turning the same bits again takes the damage back, where no call took it up.
    if maker.make(Call::Restart).answer.is_err() && maker.random.once_in(8) {
        maker.make(Call::Format);
    } else if maker.sound.is_none() {
        maker.run_all(&differences);
        maker.make(Call::Restart);
    }
}

fn damage_desk(maker: &mut Maker) {
    let batch = maker.some_batch().unwrap_or_default();
    let (number, bits) = (maker.random.below(DESK_NUMBERS), 1 << maker.random.below(12));
    maker.run_all(&[Command::DamageDesk { number, bits }]);
    let calls = [Call::Begin, Call::Commit { batch }, Call::Mark { batch }, Call::Return { batch, mark: batch }];
    let made = calls[maker.random.below(calls.len())];
    maker.make(made);
    maker.make(Call::Restart);
}

/// Calls of a batch that was open before the damage, and others.
fn some_calls(maker: &mut Maker, batch: u32) {
    let page = maker.random.below(maker.page_count()) as u32;
    let key = maker.keys.any(&mut maker.random);
    maker.make(Call::Begin);
    maker.make(Call::Next { batch, key });
    maker.make(Call::Previous { batch, key });
    maker.make(Call::Insert { batch, key, value: 4 });
    maker.make(Call::Mark { batch });
    maker.make(Call::Return { batch, mark: batch });
    maker.make(Call::Commit { batch });
    maker.make(Call::WriteOut { page });
}

/// The turned bits that make the one from the other, byte by byte.
fn differences(from: &Areas, to: &Areas) -> Vec<Command> {
    let mut commands = Vec::new();
    for (area, (from, to)) in from.each().into_iter().zip(to.each()).enumerate() {
        for (byte, (from, to)) in from.iter().zip(to).enumerate() {
            if from != to {
                commands.push(Command::Damage { area, byte, bits: from ^ to });
            }
        }
    }
    commands
}
