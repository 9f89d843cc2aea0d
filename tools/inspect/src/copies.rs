//! The example host's file (`examples/host`): numbered places, each kept twice in blocks of its own with a checksum.

use decode::sizes::{MOST_PAGES, SLOT_BYTES};

pub const BLOCK_BYTES: usize = 4096;
pub const COPIES: usize = 2;
pub const PLACE_BYTES: usize = SLOT_BYTES;

/// One place for the two counts, then the pages, then the slots.
pub const COUNTS_PLACE: usize = 0;
pub const PAGE_PLACE: usize = 1;
pub const SLOT_PLACE: usize = PAGE_PLACE + MOST_PAGES;

const MARK: &[u8; 4] = b"Dzk2";
const BYTES_AT: usize = 8;
const GROUP_AT: usize = BYTES_AT + PLACE_BYTES;
const SUM_AT: usize = GROUP_AT + 8;
const COPY_BYTES: usize = SUM_AT + 4;

/// So many first copies stand together, and then their second copies.
const STRIPE: usize = 64;

/// Before there were groups a copy had another mark, and its checksum after the bytes; the two copies of a place stood together.
const UNGROUPED_STRIPE: usize = 1;
const UNGROUPED_MARK: &[u8; 4] = b"Dzk1";
const UNGROUPED_SUM_AT: usize = GROUP_AT;

/// The stores of one call: the group's number in its file, and how many stores it has. What a file is filled with is of group 0.
#[derive(Clone, Copy, Debug, Default, PartialEq, Eq)]
pub struct Group {
    pub number: u32,
    pub stores: u32,
}

/// A copy that is whole.
#[derive(Clone, Copy, Debug, PartialEq, Eq)]
pub struct Copy<'a> {
    pub group: Group,
    pub bytes: &'a [u8],
}

/// Where a copy's block begins in a new file.
pub fn copy_at(place: usize, which: usize) -> usize {
    striped_at(STRIPE, place, which)
}

fn striped_at(stripe: usize, place: usize, which: usize) -> usize {
    ((place / stripe * COPIES + which) * stripe + place % stripe) * BLOCK_BYTES
}

/// Whether a copy of the counts has this mark, in a file with such stripes.
fn has_counts(file: &[u8], stripe: usize, mark: &[u8]) -> bool {
    (0..COPIES)
        .any(|which| file.get(striped_at(stripe, COUNTS_PLACE, which)..).is_some_and(|block| block.starts_with(mark)))
}

fn is_ungrouped(file: &[u8]) -> bool {
    has_counts(file, UNGROUPED_STRIPE, UNGROUPED_MARK)
}

pub fn has_mark(file: &[u8]) -> bool {
    is_ungrouped(file) || has_counts(file, STRIPE, MARK)
}

/// One copy as it stands in its block.
pub fn seal(place: usize, group: Group, bytes: &[u8]) -> [u8; COPY_BYTES] {
    let mut copy = [0; COPY_BYTES];
    copy[..4].copy_from_slice(MARK);
    copy[4..BYTES_AT].copy_from_slice(&(place as u32).to_be_bytes());
    copy[BYTES_AT..BYTES_AT + bytes.len()].copy_from_slice(bytes);
    copy[GROUP_AT..GROUP_AT + 4].copy_from_slice(&group.number.to_be_bytes());
    copy[GROUP_AT + 4..SUM_AT].copy_from_slice(&group.stores.to_be_bytes());
    let sum = sum_of(&copy[..SUM_AT]);
    copy[SUM_AT..].copy_from_slice(&sum.to_be_bytes());
    copy
}

/// A copy. None where it is not whole, or is another place's.
pub fn unseal(file: &[u8], place: usize, which: usize) -> Option<Copy<'_>> {
    let stripe = if is_ungrouped(file) { UNGROUPED_STRIPE } else { STRIPE };
    let copy = file.get(striped_at(stripe, place, which)..)?.get(..COPY_BYTES)?;
    let is_whole = |mark: &[u8], sum_at: usize| {
        copy.starts_with(mark)
            && number_at(copy, 4) == place as u32
            && number_at(copy, sum_at) == sum_of(&copy[..sum_at])
    };
    let bytes = &copy[BYTES_AT..GROUP_AT];
    if is_whole(MARK, SUM_AT) {
        let group = Group { number: number_at(copy, GROUP_AT), stores: number_at(copy, GROUP_AT + 4) };
        return Some(Copy { group, bytes });
    }
    is_whole(UNGROUPED_MARK, UNGROUPED_SUM_AT).then_some(Copy { group: Group::default(), bytes })
}

pub fn number_at(bytes: &[u8], at: usize) -> u32 {
    u32::from_be_bytes([bytes[at], bytes[at + 1], bytes[at + 2], bytes[at + 3]])
}

/// CRC-32, bit by bit.
fn sum_of(bytes: &[u8]) -> u32 {
    let mut sum = u32::MAX;
    for byte in bytes {
        sum ^= u32::from(*byte);
        for _ in 0..8 {
            sum = if sum & 1 == 1 { sum >> 1 ^ 0xEDB8_8320 } else { sum >> 1 };
        }
    }
    !sum
}

#[cfg(test)]
mod tests {
    use super::*;

    #[test]
    fn the_published_value_of_crc_32() {
        assert_eq!(sum_of(b"123456789"), 0xCBF4_3926);
    }

    #[test]
    fn a_copy_is_whole_at_its_own_place_alone() {
        let mut file = vec![0; copy_at(STRIPE, 0)];
        let group = Group { number: 5, stores: 2 };
        let copy = seal(3, group, &[7; PLACE_BYTES]);
        file[copy_at(3, 1)..][..copy.len()].copy_from_slice(&copy);
        assert_eq!(unseal(&file, 3, 1), Some(Copy { group, bytes: &[7; PLACE_BYTES] }));
        assert_eq!(unseal(&file, 3, 0), None);
        file.copy_within(copy_at(3, 1)..copy_at(4, 1), copy_at(2, 0));
        assert_eq!(unseal(&file, 2, 0), None);
        file[copy_at(3, 1) + 20] ^= 1;
        assert_eq!(unseal(&file, 3, 1), None);
    }

    #[test]
    fn a_copy_from_before_there_were_groups_is_of_none() {
        let mut file = vec![0; 2 * BLOCK_BYTES];
        let second = &mut file[BLOCK_BYTES..];
        second[..4].copy_from_slice(UNGROUPED_MARK);
        let sum = sum_of(&second[..UNGROUPED_SUM_AT]);
        second[UNGROUPED_SUM_AT..][..4].copy_from_slice(&sum.to_be_bytes());
        assert!(has_mark(&file));
        assert_eq!(unseal(&file, 0, 1), Some(Copy { group: Group::default(), bytes: &[0; PLACE_BYTES] }));
        assert_eq!(unseal(&file, 0, 0), None);
        file[BLOCK_BYTES + UNGROUPED_SUM_AT] ^= 1;
        assert_eq!(unseal(&file, 0, 1), None);
    }
}
