//! Each tree rule, broken by itself on a sound tree of three levels, is seen.

use reference::calls::write_update;
use reference::layout::{Entry, Kind, Page, Pages, Record};
use reference::log::Work;
use reference::sizes::{ROOT, TOP};
use reference::tree::slides_of;

/// Slides 0, 10, 20 and so on, put in by rising key.
fn tree_of(slides: u32) -> Pages {
    let mut work = Work::formatted(300, 100_000);
    work.write(Record::new(Kind::Begin)).expect("room");
    for key in (0..slides).map(|slide| 10 * slide) {
        write_update(&mut work, 1, Kind::Insert, Entry::new(key, key)).expect("room");
    }
    work.pages
}

/// Three levels, each with pages between its first and its last.
fn tree() -> Pages {
    let pages = tree_of(300);
    assert_eq!(pages.list[ROOT].level, 2);
    assert_eq!(slides_of(&pages).map(|slides| slides.len()), Ok(300));
    pages
}

/// The child of the second entry of a page.
fn second_child(pages: &Pages, page: usize) -> usize {
    pages.list[page].entries[1].child()
}

fn is_broken(break_rule: impl FnOnce(&mut Pages)) -> bool {
    let mut pages = tree();
    break_rule(&mut pages);
    slides_of(&pages).is_err()
}

/// Whether the change to a leaf, with a leaf on each side, is seen.
fn is_broken_leaf(break_rule: impl FnOnce(&mut Page)) -> bool {
    is_broken(|pages| {
        let leaf = second_child(pages, second_child(pages, ROOT));
        break_rule(&mut pages.list[leaf]);
    })
}

/// Whether the change to an index page of level 1 is seen.
fn is_broken_index(break_rule: impl FnOnce(&mut Page)) -> bool {
    is_broken(|pages| {
        let index = second_child(pages, ROOT);
        break_rule(&mut pages.list[index]);
    })
}

#[test]
fn children_are_one_level_below_and_of_the_right_kind() {
    assert!(is_broken_index(|page| page.level = 2));
    assert!(is_broken_leaf(|page| *page = Page::free(page.own, page.log)));
    assert!(is_broken(|pages| pages.list[ROOT].level = 3));
    assert!(is_broken(|pages| pages.list[ROOT] = Page::free(ROOT, 0)));
}

#[test]
fn high_keys_rise_strictly_and_the_last_is_top() {
    assert!(is_broken_leaf(|page| page.high = 0));
    assert!(is_broken_leaf(|page| page.high = TOP));
    assert!(is_broken_leaf(|page| page.high += 1), "the entry above stands for one page only");
    let mut empty = Pages::formatted(16);
    assert!(slides_of(&empty).is_ok());
    empty.list[ROOT].high = TOP - 1;
    assert!(slides_of(&empty).is_err());
}

#[test]
fn entries_rise_strictly_within_what_the_page_covers() {
    assert!(is_broken_leaf(|page| page.entries.swap(1, 2)));
    assert!(is_broken_leaf(|page| page.entries[1].key = page.entries[0].key));
    assert!(is_broken_leaf(|page| page.entries[0].key = 0), "at or below the left neighbour's high key");
    assert!(is_broken_leaf(|page| page.entries.last_mut().expect("entries").key = page.high + 1));
}

#[test]
fn an_index_pages_last_entry_has_its_high_key() {
    // Its entry in the root moves along, so that only the page itself shows it.
    let widen = |pages: &mut Pages, last_entry_too: bool| {
        let index = second_child(pages, ROOT);
        let last = pages.list[index].entries.last_mut().expect("entries");
        last.key += u32::from(last_entry_too);
        let child = last.child();
        pages.list[child].high += u32::from(last_entry_too);
        pages.list[index].high += 1;
        pages.list[ROOT].entries[1].key += 1;
    };
    assert!(!is_broken(|pages| widen(pages, true)));
    assert!(is_broken(|pages| widen(pages, false)));
}

#[test]
fn an_entry_stands_for_its_child_and_at_most_one_page_after_it() {
    assert!(is_broken_index(|page| page.entries[2].value = page.entries[1].value));
    assert!(is_broken_index(|page| page.entries[2].value = 300), "no such page");
    assert!(is_broken_index(|page| page.entries[2].value |= 1 << 10), "nothing above the child's ten bits");
    let unlink = |page: &mut Page, place: usize| {
        page.entries[place].key = page.entries[place + 1].key;
        page.entries.remove(place + 1);
    };
    assert!(!is_broken_index(|page| unlink(page, 1)), "one indirect page");
    assert!(is_broken_index(|page| (0..2).for_each(|_| unlink(page, 1))), "two indirect pages adjoin");
}

#[test]
fn pages_hold_at_least_4_entries() {
    assert!(!is_broken_leaf(|page| page.entries.truncate(4)));
    assert!(is_broken_leaf(|page| page.entries.truncate(3)));
    assert!(is_broken(|pages| pages.list[ROOT].entries.clear()));
    let mut beside_sibling = tree_of(15);
    assert_ne!(beside_sibling.list[ROOT].right, 0);
    beside_sibling.list[ROOT].entries.truncate(4);
    assert!(slides_of(&beside_sibling).is_ok());
    beside_sibling.list[ROOT].entries.truncate(3);
    assert!(slides_of(&beside_sibling).is_err(), "the root has a right sibling and then holds at least 4");
}

#[test]
fn the_root_has_at_most_one_right_sibling() {
    let mut pages = tree_of(15);
    let sibling = pages.list[ROOT].right;
    let third = 7;
    let mut last = pages.list[sibling].clone();
    pages.list[sibling].entries.truncate(4);
    pages.list[sibling].high = last.entries[3].key;
    pages.list[sibling].right = third;
    last.entries.drain(..4);
    last.own = third;
    pages.list[third] = last;
    pages.map.take(third);
    assert!(slides_of(&pages).is_err());
}

#[test]
fn a_page_is_marked_used_exactly_when_it_is_reached_once() {
    assert!(is_broken(|pages| pages.map.take(2)));
    assert!(is_broken(|pages| pages.map.give_back(0)));
    assert!(is_broken(|pages| {
        let leaf = second_child(pages, second_child(pages, ROOT));
        pages.map.give_back(leaf);
    }));
    assert!(is_broken_leaf(|page| page.right = page.own), "reached twice");
    assert!(is_broken_leaf(|page| page.right = 1023), "no such page");
    assert!(is_broken_leaf(|page| page.right = 0), "the level ends too early");
}
