//! The last group of a host's file: it is there whole or not at all (`examples/host/group.h`).

use crate::copies::{unseal, Copy, Group, COPIES};

/// A place's two copies, where they are whole.
pub type Reading<'a> = [Option<Copy<'a>>; COPIES];

pub fn reading(file: &[u8], place: usize) -> Reading<'_> {
    [unseal(file, place, 0), unseal(file, place, 1)]
}

/// The last group: at how many places it is found, and whether in a second copy.
#[derive(Default)]
pub struct LastGroup {
    is: Group,
    found: u32,
    has_second: bool,
}

impl LastGroup {
    pub fn among(file: &[u8], places: impl Iterator<Item = usize>) -> LastGroup {
        let mut last = LastGroup::default();
        places.for_each(|place| last.note(reading(file, place)));
        last
    }

    fn note(&mut self, copies: Reading) {
        let newest = copies.iter().flatten().map(|copy| copy.group).max_by_key(|group| group.number);
        if let Some(is) = newest.filter(|group| group.number > self.is.number) {
            *self = LastGroup { is, ..LastGroup::default() };
        }
        self.found += u32::from(copies.iter().any(|copy| self.has(copy)));
        self.has_second |= self.has(&copies[1]);
    }

    fn has(&self, copy: &Option<Copy>) -> bool {
        copy.is_some_and(|copy| copy.group.number == self.is.number)
    }

    /// Whether a first copy is of a group of which other stores are not there. It does not count then.
    pub fn is_ahead(&self, first: &Option<Copy>) -> bool {
        self.found < self.is.stores && !self.has_second && self.has(first)
    }

    /// Whether stores are missing that were there.
    pub fn lacks_stores(&self) -> bool {
        self.found < self.is.stores && self.has_second
    }
}

#[cfg(test)]
mod tests {
    use super::*;
    use crate::copies::{copy_at, seal, PLACE_BYTES};

    const PLACES: usize = 3;

    /// A file of three places of which each of these copies, of a place, is of this group; the rest are of none.
    fn file_with(group: Group, copies: &[(usize, usize)]) -> Vec<u8> {
        let mut file = vec![0; copy_at(PLACES, 1)];
        for (place, which) in (0..PLACES).flat_map(|place| [(place, 0), (place, 1)]) {
            let of = if copies.contains(&(place, which)) { group } else { Group::default() };
            let copy = seal(place, of, &[of.number as u8; PLACE_BYTES]);
            file[copy_at(place, which)..][..copy.len()].copy_from_slice(&copy);
        }
        file
    }

    /// Of which places the first copy is ahead, and whether stores are missing.
    fn judged(copies: &[(usize, usize)]) -> (Vec<usize>, bool) {
        let file = file_with(Group { number: 4, stores: 2 }, copies);
        let last = LastGroup::among(&file, 0..PLACES);
        let ahead = (0..PLACES).filter(|place| last.is_ahead(&reading(&file, *place)[0])).collect();
        (ahead, last.lacks_stores())
    }

    #[test]
    fn the_last_group_is_there_whole_or_not_at_all() {
        assert_eq!(judged(&[]), (vec![], false));
        assert_eq!(judged(&[(1, 0)]), (vec![1], false));
        assert_eq!(judged(&[(1, 0), (2, 0)]), (vec![], false));
        assert_eq!(judged(&[(1, 0), (2, 0), (2, 1)]), (vec![], false));
        assert_eq!(judged(&[(1, 0), (2, 1)]), (vec![], false));
        assert_eq!(judged(&[(1, 0), (1, 1)]), (vec![], true));
    }
}
