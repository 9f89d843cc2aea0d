//! Pages, records and the desk are read back as they were written, and stand in the bytes where 01 puts them.

use reference::bench::Random;
use reference::layout::{obeys_row, Desk, Entry, Kind, Page, PageKind, Pages, Record};
use reference::sizes::{DESK_NUMBERS, MAP, PAGE_BYTES, TOP};

fn words(bytes: &[u8]) -> Vec<u32> {
    bytes.chunks_exact(4).map(|word| u32::from_be_bytes([word[0], word[1], word[2], word[3]])).collect()
}

fn random_entries(random: &mut Random, children: bool) -> Vec<Entry> {
    let limit = if children { 10 } else { 32 };
    let count = random.within(0, 14);
    (0..count).map(|_| Entry::new(random.number(), random.number() >> (32 - limit))).collect()
}

#[test]
fn a_page_stands_in_its_bytes_most_significant_first() {
    let page = Page {
        kind: PageKind::Index,
        level: 5,
        right: 0x155,
        left: 0,
        high: 0x0102_0304,
        log: 0x0506_0708,
        own: 0x3FE,
        entries: vec![Entry::new(0x1112_1314, 0x0000_03FF)],
    };
    // kind 10, level 0101, count 0001, right 0101010101, 12 spare.
    let head = 0b10_0101_0001_0101010101_000000000000;
    let expected = [head, 0x0102_0304, 0x0506_0708, 0x3FE << 22, 0x1112_1314, 0x3FF];
    assert_eq!(words(&page.bytes())[..6], expected);
    assert!(words(&page.bytes())[6..].iter().all(|word| *word == 0));
}

#[test]
fn a_left_link_stands_in_the_first_10_bits_after_the_right_link_and_is_not_stored() {
    let leaf = Page { right: 0x155, left: 0x2AA, kind: PageKind::Leaf, ..Page::free(7, 9) };
    // kind 01, level 0000, count 0000, right 0101010101, left 1010101010, 2 spare.
    assert_eq!(words(&leaf.bytes())[0], 0b01_0000_0000_0101010101_1010101010_00);
    assert_eq!(words(&leaf.stored().bytes())[0], 0b01_0000_0000_0101010101_0000000000_00);
    assert_eq!(words(&leaf.bytes())[1..], words(&leaf.stored().bytes())[1..]);
}

#[test]
fn a_record_stands_in_its_bytes_most_significant_first() {
    let record = Record {
        level: 3,
        own: 16,
        batch: 17,
        previous: 18,
        a: 1,
        b: 255,
        c: 0x3FF,
        key: 70,
        second: TOP,
        right: 2,
        entries: vec![Entry::new(80, 8), Entry::new(90, 9)],
        ..Record::new(Kind::Split)
    };
    // kind 1001, count 0010, level 0011, 20 spare; A, B, C and 2 spare.
    let head = 0b1001_0010_0011_00000000000000000000;
    let pages = 0b0000000001_0011111111_1111111111_00;
    let expected = [head, 16, 17, 18, pages, 70, TOP, 2 << 22, 80, 8, 90, 9];
    assert_eq!(words(&record.bytes())[..12], expected);
    assert!(words(&record.bytes())[12..].iter().all(|word| *word == 0));
}

#[test]
fn the_maps_bits_begin_at_the_most_significant_end() {
    let mut pages = Pages::formatted(896);
    pages.map.take(9);
    pages.map.take(895);
    let bytes = pages.page_bytes(MAP);
    assert_eq!((bytes[0], bytes[16], bytes[17], bytes[127]), (0b1100_0000, 0b1100_0000, 0b0100_0000, 1));
    assert_eq!(pages.highest_free(), Some(894));
    assert_eq!(pages.free_count(), 892);
}

#[test]
fn pages_are_read_back() {
    let mut random = Random::new(1);
    for own in (2..900).map(|own| own % 900) {
        let index = random.once_in(2);
        let level = if index { random.within(1, 15) } else { 0 };
        let page = Page {
            kind: PageKind::at_level(level),
            level,
            right: random.below(1024),
            left: if index { 0 } else { random.below(1024) },
            high: random.number(),
            log: random.number(),
            own,
            entries: random_entries(&mut random, index),
        };
        assert_eq!(Page::read(&page.bytes()), page);
        assert!(page.judge_layout(own).is_ok() && page.judge_layout(own + 1).is_err());
    }
}

#[test]
fn records_are_read_back() {
    let mut random = Random::new(2);
    for kind in Kind::ALL.into_iter().cycle().take(1500) {
        let record = Record {
            level: random.below(16),
            own: random.number(),
            batch: random.number(),
            previous: random.number(),
            a: random.below(1024),
            b: random.below(1024),
            c: random.below(1024),
            key: random.number(),
            second: random.number(),
            right: random.below(1024),
            entries: random_entries(&mut random, false),
            ..Record::new(kind)
        };
        assert_eq!(Record::read(&record.bytes()), Some(record.clone()));
        assert!(obeys_row(&record).is_err(), "no row names every field");
    }
}

#[test]
fn the_desk_is_read_back() {
    let numbers: [u32; DESK_NUMBERS] = std::array::from_fn(|place| 0x0102_0304 * (place as u32 + 1));
    let desk = Desk::of_numbers(numbers);
    assert_eq!(desk.numbers(), numbers);
    assert_eq!(words(&desk.bytes()), numbers);
    assert_eq!(Desk::read(&desk.bytes()), desk);
    assert_eq!((desk.rows[1].batch, desk.rows[7].pending), (numbers[4], numbers[31]));
    assert_eq!((desk.written, desk.stored), (numbers[32], numbers[33]));
}

/// Whether this one bit of a stable page may be turned over in a new register of 16 pages.
fn is_free_field(page: usize, bit: usize) -> bool {
    match page {
        // The map's log number, and the bits of pages 0 to 15.
        0 => matches!(bit, 64..=95 | 128..=143),
        // The root's count of zero entries, right link, high key and log number.
        1 => matches!(bit, 6..=19 | 32..=95),
        // A never used page that gets its own number is a free page. One bit is enough for 2, 4 and 8.
        _ => (96..=105).contains(&bit) && page == 1 << (105 - bit),
    }
}

#[test]
fn every_other_bit_breaks_the_layout() {
    let bytes = Pages::formatted(16).bytes();
    assert!(Pages::read(&bytes).is_ok());
    for bit in 0..8 * bytes.len() {
        let mut changed = bytes.clone();
        changed[bit / 8] ^= 0x80 >> (bit % 8);
        let (page, bit) = (bit / 8 / PAGE_BYTES, bit % (8 * PAGE_BYTES));
        let is_free = is_free_field(page, bit);
        assert_eq!(Pages::read(&changed).is_ok(), is_free, "page {page}, bit {bit}");
        // The root, a leaf, has a left link as a working page.
        let is_left_link = page == 1 && (20..=29).contains(&bit);
        assert_eq!(Pages::read_working(&changed).is_ok(), is_free || is_left_link, "working page {page}, bit {bit}");
    }
}
