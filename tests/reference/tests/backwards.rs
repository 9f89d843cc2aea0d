//! Request U5, stepping backwards: previous is the mirror of next, under the same rule on held keys. The left links of the
//! working leaves are set by every call that changes the leaves, worked out by a restart, asked for by "sound", and never
//! stored.

use decode::rules::levels_of;
use reference::bench::{full_register, image_of, Instrument};
use reference::calls::{sound, write_update, Answer, Call, Columns, Outcome};
use reference::layout::{Areas, Desk, Entry, Kind, Page, PageKind, Pages, Record};
use reference::log::Work;
use reference::sizes::{MAP, PAGE_BYTES, ROOT, TOP};
use reference::Refusal;

type Given = Result<Answer, Refusal>;

const DONE: Given = Ok(Answer::Done);
const NONE_BELOW: Given = Err(Refusal::Absent);
const HELD: Given = Err(Refusal::Held);
const PAGES: usize = 300;
const SLOTS: usize = 2000;

/// Keys 10, 20 and so on, each with the next number as its value.
fn loaded(size: u32) -> Instrument {
    let mut instrument = Instrument::lent(PAGES, SLOTS);
    let columns = Columns::of_records((1..=size).map(|number| (10 * number, 10 * number + 1)));
    assert_eq!(instrument.make(Call::Load { columns }).answer, DONE);
    instrument
}

fn begin(instrument: &mut Instrument) -> u32 {
    match instrument.make(Call::Begin).answer {
        Ok(Answer::Batch(batch)) => batch,
        other => panic!("{other:?}"),
    }
}

fn insert(instrument: &mut Instrument, batch: u32, key: u32) {
    assert_eq!(instrument.make(Call::Insert { batch, key, value: key + 1 }).answer, DONE, "insert {key}");
}

fn delete(instrument: &mut Instrument, batch: u32, key: u32) {
    assert_eq!(instrument.make(Call::Delete { batch, key }).answer, DONE, "delete {key}");
}

/// What previous answers here; it is seen to change nothing.
fn previous(instrument: &Instrument, batch: u32, key: u32) -> Given {
    let Instrument { areas, desk, .. } = instrument;
    let outcome = instrument.outcome_of(Call::Previous { batch, key });
    match outcome.answer {
        Ok(answer) => assert_eq!(outcome, Outcome::unchanged(areas, desk, answer)),
        Err(refusal) => assert_eq!(outcome, Outcome::refused(areas, desk, refusal)),
    }
    outcome.answer
}

fn slide(key: u32) -> Given {
    Ok(Answer::Slide { key, value: key + 1 })
}

#[test]
fn a_register_without_slides_has_none_below() {
    let mut instrument = loaded(0);
    let batch = begin(&mut instrument);
    for key in [0, 1, 500, TOP] {
        assert_eq!(previous(&instrument, batch, key), NONE_BELOW);
    }
}

#[test]
fn it_finds_the_greatest_key_below_in_the_same_leaf_or_the_one_before() {
    // One leaf, two, several under one index page, and under several.
    for size in [1, 14, 15, 24, 141, 300] {
        let mut instrument = loaded(size);
        let batch = begin(&mut instrument);
        for key in (1..=size).map(|number| 10 * number) {
            let before = if key == 10 { NONE_BELOW } else { slide(key - 10) };
            // Of a key that is there, of one that is not, and of the one right above a slide.
            assert_eq!([key, key - 5, key - 9].map(|asked| previous(&instrument, batch, asked)), [before; 3]);
            assert_eq!(previous(&instrument, batch, key + 1), slide(key));
        }
        assert_eq!(previous(&instrument, batch, TOP), slide(10 * size));
    }
}

#[test]
fn stepping_down_meets_what_stepping_up_meets() {
    let mut instrument = loaded(200);
    let batch = begin(&mut instrument);
    // A tree as updates leave it, with a leaf that is still indirect.
    (1..=14).for_each(|number| insert(&mut instrument, batch, 10 * number + 901));
    (1..=9).for_each(|number| delete(&mut instrument, batch, 10 * number + 200));
    let walk = |step: &dyn Fn(u32) -> Call, mut key: u32| {
        let mut met = Vec::new();
        while let Ok(Answer::Slide { key: found, .. }) = instrument.outcome_of(step(key)).answer {
            met.push(found);
            key = found;
        }
        met
    };
    let up = walk(&|key| Call::Next { batch, key }, 0);
    let mut down = walk(&|key| Call::Previous { batch, key }, TOP);
    down.reverse();
    assert_eq!((up.len(), up), (205, down));
}

#[test]
fn it_steps_from_the_roots_right_sibling_into_the_root() {
    let mut instrument = loaded(14);
    let batch = begin(&mut instrument);
    insert(&mut instrument, batch, 150);
    let pages = working(&instrument);
    assert_eq!((pages.list[ROOT].right, pages.list[PAGES - 1].left), (PAGES - 1, ROOT));
    assert_eq!([80, 75, 71, 70].map(|key| previous(&instrument, batch, key)), [70, 70, 70, 60].map(slide));
}

/// A register from the field: slide 0 is filed, and so is 40.
fn with_slide_0() -> Instrument {
    let mut work = Work::formatted(PAGES, SLOTS);
    work.write(Record::new(Kind::Begin)).expect("room");
    for key in [0, 40] {
        write_update(&mut work, 1, Kind::Insert, Entry::new(key, key + 1)).expect("room");
    }
    work.write_about_batch(Kind::Commit, 1).expect("room");
    let mut instrument = Instrument { areas: image_of(&work, PAGES, SLOTS), ..Instrument::default() };
    assert!(instrument.make(Call::Restart).answer.is_ok());
    instrument
}

#[test]
fn key_0_is_found_from_above_and_nothing_is_below_it() {
    let mut instrument = with_slide_0();
    let (batch, other) = (begin(&mut instrument), begin(&mut instrument));
    assert_eq!([1, 40].map(|key| previous(&instrument, batch, key)), [slide(0); 2]);
    assert_eq!(previous(&instrument, batch, 0), NONE_BELOW);
    // Below 0 nothing can be held.
    delete(&mut instrument, other, 0);
    assert_eq!([0, 1, 40].map(|key| previous(&instrument, batch, key)), [NONE_BELOW, HELD, HELD]);
    assert_eq!([0, 1, 40].map(|key| previous(&instrument, other, key)), [NONE_BELOW; 3]);
}

#[test]
fn no_key_below_the_asked_one_down_to_the_found_one_may_be_held() {
    let mut instrument = loaded(3);
    let (batch, other) = (begin(&mut instrument), begin(&mut instrument));
    let asked = [10, 15, 16, 20, 21, 30, 31];
    let of = |instrument: &Instrument, batch: u32| asked.map(|key| previous(instrument, batch, key));
    assert_eq!(of(&instrument, batch), [NONE_BELOW, slide(10), slide(10), slide(10), slide(20), slide(20), slide(30)]);
    // Another's slide is not passed, and not found.
    insert(&mut instrument, other, 15);
    assert_eq!(of(&instrument, batch), [NONE_BELOW, slide(10), HELD, HELD, slide(20), slide(20), slide(30)]);
    assert_eq!(of(&instrument, other), [NONE_BELOW, slide(10), slide(15), slide(15), slide(20), slide(20), slide(30)]);
    // Neither is a slide passed that another has taken out.
    delete(&mut instrument, other, 20);
    assert_eq!(of(&instrument, batch), [NONE_BELOW, slide(10), HELD, HELD, HELD, HELD, slide(30)]);
    // With nothing found it is asked down to 0, and 14 goes before 16.
    delete(&mut instrument, other, 10);
    assert_eq!(of(&instrument, batch), [NONE_BELOW, HELD, HELD, HELD, HELD, HELD, slide(30)]);
    assert_eq!(of(&instrument, other), [NONE_BELOW, NONE_BELOW, slide(15), slide(15), slide(15), slide(15), slide(30)]);
    insert(&mut instrument, other, 5);
    assert_eq!(previous(&instrument, batch, 10), HELD);
    // What is taken back or filed is held no longer.
    assert_eq!(instrument.make(Call::Return { batch: other, mark: other }).answer, DONE);
    assert_eq!(of(&instrument, batch), [NONE_BELOW, slide(10), slide(10), slide(10), slide(20), slide(20), slide(30)]);
    delete(&mut instrument, other, 20);
    assert_eq!(instrument.make(Call::Commit { batch: other }).answer, DONE);
    assert_eq!(previous(&instrument, batch, 30), slide(10));
}

#[test]
fn the_asked_key_itself_may_be_held() {
    let mut instrument = loaded(3);
    let (batch, other) = (begin(&mut instrument), begin(&mut instrument));
    insert(&mut instrument, other, TOP - 1);
    delete(&mut instrument, other, 30);
    assert_eq!([30, TOP - 1, TOP].map(|key| previous(&instrument, batch, key)), [slide(20), HELD, HELD]);
}

#[test]
fn the_checks_go_1_11_12() {
    let mut instrument = loaded(3);
    let (batch, ended) = (begin(&mut instrument), begin(&mut instrument));
    assert_eq!(instrument.make(Call::Commit { batch: ended }).answer, DONE);
    let mut unsound = instrument.clone();
    unsound.desk.written += 1;
    let mut uneven = unsound.clone();
    uneven.areas.stable_log.push(0);
    for key in [0, 10, 25, TOP] {
        for batch in [batch, ended, 0, 99, TOP] {
            assert_eq!(previous(&uneven, batch, key), Err(Refusal::Lengths));
            assert_eq!(previous(&unsound, batch, key), Err(Refusal::Unsound));
        }
        for none in [ended, 0, 99, TOP] {
            assert_eq!(previous(&instrument, none, key), Err(Refusal::NoBatch));
        }
    }
}

fn working(instrument: &Instrument) -> Pages {
    Pages::read_working(&instrument.areas.working_pages).expect("by the layout")
}

/// The leaves from left to right.
fn leaves(pages: &Pages) -> Vec<usize> {
    levels_of(pages).expect("a tree by the rules").pop().expect("a level")
}

/// Each working leaf names the one before it, the first none, and no other page, working or stable, names any.
fn check_links(instrument: &Instrument) {
    let pages = working(instrument);
    let mut wanted = vec![0; pages.count()];
    leaves(&pages).windows(2).for_each(|pair| wanted[pair[1]] = pair[0]);
    assert!(pages.list.iter().map(|page| page.left).eq(wanted));
    assert!(Pages::read(&instrument.areas.stable_pages).is_ok(), "no left link is stored");
    assert!(sound(&instrument.areas, &instrument.desk).is_some());
}

#[test]
fn format_and_load_set_them() {
    for size in [0, 1, 14, 15, 24, 140, 141, 143, 1401] {
        check_links(&loaded(size));
    }
    let mut instrument = loaded(200);
    assert_eq!(instrument.make(Call::Format).answer, DONE);
    check_links(&instrument);
}

/// What a call wrote, by the kinds of its records.
fn kinds_after(instrument: &Instrument, written: u32) -> Vec<Kind> {
    let records = sound(&instrument.areas, &instrument.desk).expect("sound").work.log.records;
    records[written as usize..].iter().map(|record| record.kind).collect()
}

#[test]
fn a_split_a_merge_and_a_raise_link_a_leaf_that_their_records_do_not_name() {
    let mut instrument = loaded(30);
    let batch = begin(&mut instrument);
    let before = working(&instrument);
    let [first, second, third] = leaves(&before)[..] else { panic!("three leaves") };
    // A full first leaf is split; page 299 is taken for its right half.
    (1..=5).for_each(|key| insert(&mut instrument, batch, key));
    assert!(kinds_after(&instrument, 0).contains(&Kind::Split));
    let split = working(&instrument);
    assert_eq!(leaves(&split), [first, PAGES - 1, second, third]);
    // All that changes in the leaf after it is the left link: its log number stays.
    assert_eq!(split.list[second], Page { left: PAGES - 1, ..before.list[second].clone() });
    // Emptied again, the two are merged, and the leaf after them has its old left link back.
    let written = instrument.desk.written;
    [1, 2, 3, 4, 5, 10, 20].into_iter().for_each(|key| delete(&mut instrument, batch, key));
    assert!(kinds_after(&instrument, written).contains(&Kind::Merge));
    assert_eq!(working(&instrument).list[second], before.list[second]);
    check_links(&instrument);
    // The root's right sibling comes to stand after the page that a raise takes.
    let mut instrument = loaded(14);
    let batch = begin(&mut instrument);
    insert(&mut instrument, batch, 150);
    let sibling = working(&instrument).list[PAGES - 1].clone();
    let written = instrument.desk.written;
    insert(&mut instrument, batch, 5);
    assert_eq!(kinds_after(&instrument, written), [Kind::Raise, Kind::Insert]);
    assert_eq!(working(&instrument).list[PAGES - 1], Page { left: PAGES - 2, ..sibling });
    check_links(&instrument);
}

#[test]
fn every_call_keeps_them() {
    let mut instrument = loaded(60);
    // Every place of a level grows and shrinks, and what was done is taken back in each way.
    for round in 0..12 {
        let batch = begin(&mut instrument);
        for number in 0..12 {
            insert(&mut instrument, batch, 50 * round + 4 * number + 1);
            check_links(&instrument);
        }
        let Ok(Answer::Mark(mark)) = instrument.make(Call::Mark { batch }).answer else { panic!("no mark") };
        for number in 1..=5 {
            delete(&mut instrument, batch, 50 * round + 10 * number);
            check_links(&instrument);
        }
        let end = match round % 4 {
            0 => Call::Commit { batch },
            1 => Call::Abort { batch },
            2 => Call::Return { batch, mark },
            _ => Call::WriteOut { page: leaves(&working(&instrument))[3] as u32 },
        };
        assert_eq!(instrument.make(end).answer, DONE);
        check_links(&instrument);
        assert!(instrument.make(Call::Restart).answer.is_ok());
        check_links(&instrument);
    }
}

#[test]
fn write_out_stores_them_as_zero() {
    let mut instrument = loaded(200);
    let batch = begin(&mut instrument);
    (1..=9).for_each(|key| insert(&mut instrument, batch, 100 * key + 1));
    let linked = working(&instrument);
    assert!(linked.list.iter().filter(|page| page.left != 0).count() > 15);
    for page in 0..PAGES {
        assert_eq!(instrument.make(Call::WriteOut { page: page as u32 }).answer, DONE);
    }
    assert_eq!(working(&instrument), linked, "the working pages keep them");
    assert_eq!(Pages::read(&instrument.areas.stable_pages), Ok(linked.stored()));
}

#[test]
fn a_restart_works_them_out_whatever_was_written_out_when() {
    let mut instrument = loaded(24);
    let filed = begin(&mut instrument);
    (0..20).for_each(|number| insert(&mut instrument, filed, 10 * number + 3));
    assert_eq!(instrument.make(Call::Commit { batch: filed }).answer, DONE);
    let open = begin(&mut instrument);
    (501..=525).for_each(|key| insert(&mut instrument, open, key));
    let pages = working(&instrument);
    for one_in in 1..=5 {
        let mut image = instrument.clone();
        for page in leaves(&pages).into_iter().step_by(one_in) {
            assert_eq!(image.make(Call::WriteOut { page: page as u32 }).answer, DONE);
        }
        image.areas.fill_working(0xA5);
        let written = image.desk.written;
        assert!(image.make(Call::Restart).answer.is_ok());
        // Undo merges leaves, which have their links by then.
        assert!(kinds_after(&image, written).contains(&Kind::Merge));
        check_links(&image);
    }
}

#[test]
fn a_refused_restart_leaves_none() {
    let areas = image_of(&full_register(), 16, 1024);
    let mut instrument = Instrument { areas, ..Instrument::default() };
    assert_eq!(instrument.make(Call::Restart).answer, Err(Refusal::PagesShort));
    assert!(instrument.areas.working_pages.iter().all(|byte| *byte == 0));
}

/// The register with one of its working pages changed.
fn with_page(instrument: &Instrument, page: &Page) -> Instrument {
    let mut changed = instrument.clone();
    changed.areas.working_pages[page.own * PAGE_BYTES..][..PAGE_BYTES].copy_from_slice(&page.bytes());
    changed
}

#[test]
fn a_forged_left_link_is_unsound() {
    let mut instrument = loaded(200);
    let batch = begin(&mut instrument);
    let pages = working(&instrument);
    for leaf in leaves(&pages).into_iter().map(|leaf| &pages.list[leaf]) {
        for left in [0, ROOT, leaf.own, leaf.right, leaf.left ^ 1, leaf.left ^ 0x200, PAGES, 1023] {
            let forged = with_page(&instrument, &Page { left, ..leaf.clone() });
            let wanted = if left == leaf.left { slide(50) } else { Err(Refusal::Unsound) };
            assert_eq!(previous(&forged, batch, 60), wanted, "leaf {}, left link {left}", leaf.own);
        }
    }
    let forged = with_page(&instrument, &Page { left: 1, ..pages.list[leaves(&pages)[5]].clone() });
    let key = 70;
    for made in [
        Call::Begin,
        Call::Fetch { batch, key },
        Call::Next { batch, key },
        Call::Insert { batch, key: 75, value: 1 },
        Call::Delete { batch, key },
        Call::Commit { batch },
        Call::Abort { batch },
        Call::Mark { batch },
        Call::Return { batch, mark: batch },
        Call::WriteOut { page: 1 },
    ] {
        assert!(instrument.outcome_of(made).answer.is_ok());
        assert_eq!(forged.outcome_of(made).answer, Err(Refusal::Unsound), "{made:?}");
    }
}

#[test]
fn only_working_leaves_have_the_bits() {
    let mut instrument = loaded(200);
    begin(&mut instrument);
    let pages = working(&instrument);
    let index = pages.list.iter().position(Page::is_index).expect("an index page");
    let never_used = PAGES - 1;
    for page in [MAP, index, never_used] {
        for bit in 20..32 {
            let mut forged = instrument.clone();
            forged.areas.working_pages[page * PAGE_BYTES + bit / 8] ^= 0x80 >> (bit % 8);
            assert!(sound(&forged.areas, &forged.desk).is_none(), "page {page}, bit {bit}");
        }
    }
    // The last two bits are spare in a leaf too, and in a stable page all twelve are.
    let leaf = leaves(&pages)[2];
    for bit in 20..32 {
        let byte = leaf * PAGE_BYTES + bit / 8;
        let mut forged = instrument.clone();
        forged.areas.working_pages[byte] ^= 0x80 >> (bit % 8);
        assert!(sound(&forged.areas, &forged.desk).is_none(), "bit {bit}");
        assert_eq!(Pages::read_working(&forged.areas.working_pages).is_ok(), bit < 30, "bit {bit}");
    }
    for page in [MAP, index, leaf, never_used] {
        for bit in 20..32 {
            let mut forged = instrument.clone();
            forged.areas.stable_pages[page * PAGE_BYTES + bit / 8] ^= 0x80 >> (bit % 8);
            assert!(sound(&forged.areas, &forged.desk).is_some(), "the stable pages are not asked");
            assert_eq!(forged.make(Call::Restart).answer, Err(Refusal::Layout), "page {page}, bit {bit}");
        }
    }
}

/// A leaf that is not in the tree, at the place of the next page that is taken.
fn stray_leaf(left: usize, right: usize) -> Page {
    let entries = vec![Entry::new(4, 4)];
    Page { kind: PageKind::Leaf, left, right, high: 9, entries, ..Page::free(PAGES - 1, 0) }
}

#[test]
fn a_leaf_outside_the_tree_is_not_judged_and_a_page_taken_is_written_whole() {
    let mut instrument = loaded(24);
    let batch = begin(&mut instrument);
    let [first, second, _] = leaves(&working(&instrument))[..] else { panic!("three leaves") };
    let stray = stray_leaf(1023, second);
    instrument = with_page(&instrument, &stray);
    assert_eq!(previous(&instrument, batch, 110), slide(100));
    insert(&mut instrument, batch, 1);
    assert_eq!(working(&instrument).list[PAGES - 1], stray, "it stays");
    assert_eq!(instrument.make(Call::WriteOut { page: PAGES as u32 - 1 }).answer, DONE);
    let stable = Pages::read(&instrument.areas.stable_pages).expect("no left link is stored");
    assert_eq!(stable.list[PAGES - 1], stray.stored());
    (2..=5).for_each(|key| insert(&mut instrument, batch, key));
    assert_eq!(working(&instrument).list[PAGES - 1].left, first);
    check_links(&instrument);
}

#[test]
fn a_restart_sets_none_of_a_leaf_outside_the_tree_and_none_by_its_right_link() {
    let mut instrument = loaded(24);
    let leaves = leaves(&working(&instrument));
    for right in [0, leaves[0], leaves[1], leaves[2], PAGES - 1] {
        let place = (PAGES - 1) * PAGE_BYTES;
        instrument.areas.stable_pages[place..].copy_from_slice(&stray_leaf(0, right).bytes());
        assert!(instrument.make(Call::Restart).answer.is_ok());
        check_links(&instrument);
        instrument.areas.stable_pages[place..].copy_from_slice(&stray_leaf(1, right).bytes());
        assert_eq!(instrument.make(Call::Restart).answer, Err(Refusal::Layout));
        let Areas { working_pages, .. } = &instrument.areas;
        assert!(working_pages.iter().all(|byte| *byte == 0) && instrument.desk == Desk::empty());
    }
}
