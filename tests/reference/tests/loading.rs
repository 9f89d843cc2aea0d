//! Request U3, registers imported from an older instrument: which pages a loading writes, when it is refused, and that a
//! loaded register is one as any other afterwards.

use decode::rules::levels_of;
use reference::bench::{explain, Book, Instrument};
use reference::calls::{call, sound, Answer, Call, Columns, Outcome};
use reference::layout::{Areas, Desk, Entry, Page, Pages, Store};
use reference::sizes::{FEWEST_PAGES, MAP, MOST_PAGES, PAGE_BYTES, ROOT, TOP};
use reference::tree::{pages_for, slides_of};
use reference::Refusal;

const DONE: Result<Answer, Refusal> = Ok(Answer::Done);
const PAGES: usize = 300;
const SLOTS: usize = 2000;

fn records(size: usize) -> Vec<Entry> {
    (1..=size as u32).map(|number| Entry::new(10 * number, number ^ 1)).collect()
}

fn columns(size: usize) -> Columns {
    Columns::of_records(records(size).iter().map(|slide| (slide.key, slide.value)))
}

fn load(instrument: &mut Instrument, columns: Columns) -> Result<Answer, Refusal> {
    instrument.make(Call::Load { columns }).answer
}

fn loaded(size: usize) -> Instrument {
    let mut instrument = Instrument::lent(PAGES, SLOTS);
    assert_eq!(load(&mut instrument, columns(size)), DONE);
    instrument
}

fn slides(instrument: &Instrument) -> Vec<Entry> {
    sound(&instrument.areas, &instrument.desk).expect("sound").slides
}

/// How many entries the pages of each level hold, the root first.
fn sizes(pages: &Pages) -> Vec<Vec<usize>> {
    let levels = levels_of(pages).expect("a tree by the rules");
    levels.iter().map(|level| level.iter().map(|page| pages.list[*page].entries.len()).collect()).collect()
}

#[test]
fn the_numbers_are_8_and_9() {
    assert_eq!([Refusal::ColumnsDiffer, Refusal::NotRising].map(Refusal::number), [8, 9]);
}

#[test]
fn a_last_page_of_fewer_than_four_shares_with_the_one_before() {
    let leaves: [(usize, &[usize]); 14] = [
        (15, &[10, 5]),
        (16, &[10, 6]),
        (19, &[10, 9]),
        (20, &[10, 10]),
        (21, &[10, 6, 5]),
        (22, &[10, 6, 6]),
        (23, &[10, 7, 6]),
        (24, &[10, 10, 4]),
        (29, &[10, 10, 9]),
        (30, &[10, 10, 10]),
        (31, &[10, 10, 6, 5]),
        (32, &[10, 10, 6, 6]),
        (33, &[10, 10, 7, 6]),
        (34, &[10, 10, 10, 4]),
    ];
    for (size, wanted) in leaves {
        let sizes = sizes(&pages_for(&records(size), PAGES).expect("room"));
        assert_eq!(sizes, [vec![wanted.len()], wanted.to_vec()], "{size} records");
    }
    for size in 0..=14 {
        assert_eq!(sizes(&pages_for(&records(size), PAGES).expect("room")), [[size]], "a root leaf");
    }
}

#[test]
fn index_levels_are_filled_by_the_same_rule() {
    // The root takes up to 14 links; with 15 there is one more level. The leaves are not looked at here.
    let above: [(usize, &[&[usize]]); 9] = [
        (140, &[&[14]]),
        (141, &[&[2], &[10, 5]]),
        (143, &[&[2], &[10, 5]]),
        (144, &[&[2], &[10, 5]]),
        (200, &[&[2], &[10, 10]]),
        (201, &[&[3], &[10, 6, 5]]),
        (230, &[&[3], &[10, 7, 6]]),
        (240, &[&[3], &[10, 10, 4]]),
        (1401, &[&[2], &[10, 5], &[10, 10, 10, 10, 10, 10, 10, 10, 10, 10, 10, 10, 10, 6, 5]]),
    ];
    for (size, wanted) in above {
        let mut sizes = sizes(&pages_for(&records(size), MOST_PAGES).expect("room"));
        sizes.pop();
        assert_eq!(sizes, wanted, "{size} records");
    }
}

/// The pages of so many records, judged by what 02 says of each.
fn check_pages(size: usize, count: usize) {
    let records = records(size);
    let pages = pages_for(&records, count).expect("room");
    // "The tree obeys the tree rules and holds exactly the columns' records."
    assert!(slides_of(&pages).expect("a tree by the rules") == records, "{size} records");
    let levels = levels_of(&pages).expect("a tree by the rules");
    // "Numbered from 2, from the level below the root downwards, left to right."
    let used = levels.concat();
    assert!(used.iter().copied().eq(ROOT..=used.len()), "{size} records: {used:?}");
    for level in &levels {
        for page in level {
            let last = level.last() == Some(page);
            assert_eq!(pages.list[*page].high, if last { TOP } else { last_below(&pages, *page) });
            assert_eq!((pages.list[*page].log, pages.list[*page].right), (0, if last { 0 } else { page + 1 }));
        }
    }
    assert!((0..count).all(|page| pages.map.is_used(page) == (page <= used.len())));
    assert!(pages.list[used.len() + 1..].iter().all(|page| page.bytes() == [0; PAGE_BYTES]), "never used");
    assert_eq!(pages.list[MAP].log, 0);
}

/// The key of the last record in or below a page.
fn last_below(pages: &Pages, page: usize) -> u32 {
    let page = &pages.list[page];
    let last = page.entries.last().expect("no empty page beside another");
    if page.is_leaf() {
        last.key
    } else {
        last_below(pages, last.child())
    }
}

#[test]
fn every_size_gives_a_tree_by_the_rules_with_just_its_records() {
    (0..=320).for_each(|size| check_pages(size, PAGES));
    for edge in [1400, 1500, 2000, 4000, 8000] {
        (edge - 12..=edge + 40).for_each(|size| check_pages(size, MOST_PAGES));
    }
}

#[test]
fn at_most_8_040_records_fit() {
    let fits = |size: usize, count: usize| pages_for(&records(size), count).is_some();
    assert!(fits(8_040, MOST_PAGES) && !fits(8_041, MOST_PAGES));
    check_pages(8_040, MOST_PAGES);
    assert!(fits(140, FEWEST_PAGES) && !fits(141, FEWEST_PAGES));
    // To the page: as many as are used, and one fewer.
    for size in [15, 24, 140, 141, 250, 1404] {
        let used = levels_of(&pages_for(&records(size), MOST_PAGES).expect("room")).expect("a tree").concat().len();
        assert!(fits(size, used + 1) && !fits(size, used), "{size} records");
    }
}

#[test]
fn no_records_give_what_format_gives() {
    assert_eq!(pages_for(&[], PAGES), Some(Pages::formatted(PAGES)));
    let used = busy();
    assert_eq!(used.outcome_of(Call::Load { columns: Columns::NONE }), used.outcome_of(Call::Format));
}

/// A register that was loaded and worked on, with a batch open and records that are not stored.
fn busy() -> Instrument {
    let mut instrument = loaded(60);
    let batch = begin(&mut instrument);
    (0..30).for_each(|number| assert_eq!(delete(&mut instrument, batch, 10 * number + 10), DONE));
    assert_eq!(instrument.make(Call::Commit { batch }).answer, DONE);
    let batch = begin(&mut instrument);
    assert_eq!(insert(&mut instrument, batch, 5), DONE);
    instrument
}

fn begin(instrument: &mut Instrument) -> u32 {
    match instrument.make(Call::Begin).answer {
        Ok(Answer::Batch(batch)) => batch,
        other => panic!("{other:?}"),
    }
}

fn insert(instrument: &mut Instrument, batch: u32, key: u32) -> Result<Answer, Refusal> {
    instrument.make(Call::Insert { batch, key, value: key + 1 }).answer
}

fn delete(instrument: &mut Instrument, batch: u32, key: u32) -> Result<Answer, Refusal> {
    instrument.make(Call::Delete { batch, key }).answer
}

#[test]
fn every_page_and_then_every_slot_is_stored() {
    let before = busy();
    let Outcome { answer, areas, desk, stores } = before.outcome_of(Call::Load { columns: columns(60) });
    let pages = pages_for(&records(60), PAGES).expect("room");
    assert_eq!((answer, desk), (DONE, Desk::empty()));
    assert_eq!(Pages::read_working(&areas.working_pages).map(|working| working.stored()), Ok(pages.clone()));
    assert!(areas.stable_pages == pages.bytes());
    assert!([&areas.working_log, &areas.stable_log].iter().all(|log| log.iter().all(|byte| *byte == 0)));
    let place = |store: &Store| match store {
        Store::Page { page, .. } => *page,
        Store::Slot { slot, .. } => PAGES + *slot,
    };
    assert!(stores.iter().map(place).eq(0..PAGES + SLOTS));
}

/// What a loading of these columns answers here; it is seen to be refused, to change no area and to empty the desk.
fn refused(instrument: &Instrument, keys: &[u32], values: &[u32]) -> u8 {
    let columns = Columns::new(keys.to_vec(), values.to_vec());
    let outcome = instrument.outcome_of(Call::Load { columns });
    let refusal = outcome.answer.expect_err("refused");
    assert_eq!(outcome, Outcome::refused(&instrument.areas, &Desk::empty(), refusal));
    refusal.number()
}

#[test]
fn each_refusal_and_their_order() {
    let busy = busy();
    let many: Vec<u32> = (1..=4000).collect();
    let from_0: Vec<u32> = (0..4000).collect();
    let mut falling = many.clone();
    falling.swap(3998, 3999);
    // 8 alone, with more keys and with more values, and before 7, 9 and 18.
    for (keys, values) in [(&[1][..], &[][..]), (&[], &[1]), (&[1, 2], &[1, 2, 3]), (&[0], &[]), (&[2, 1], &[1])] {
        assert_eq!(refused(&busy, keys, values), 8);
    }
    assert_eq!(refused(&busy, &many, &many[1..]), 8);
    // 7 wherever the 0 stands, and before 9 and 18.
    for keys in [&[0][..], &[0, 1], &[1, 0], &[2, 1, 0], &[1, 1, 0], &[0, 0], &from_0] {
        assert_eq!(refused(&busy, keys, keys), 7, "{:?}", &keys[..keys.len().min(3)]);
    }
    // 9 for equal keys and for falling ones, at any place, and before 18.
    for keys in [&[1, 1][..], &[2, 1], &[TOP, TOP], &[1, 2, 2], &[1, 3, 2, 4], &[TOP, 1], &falling] {
        assert_eq!(refused(&busy, keys, keys), 9, "{:?}", &keys[..keys.len().min(4)]);
    }
    assert_eq!(refused(&busy, &many, &many), 18);
    // 1 before all of them.
    let mut uneven = busy;
    uneven.areas.stable_log.push(0);
    for (keys, values) in [(&[1][..], &[][..]), (&[0], &[0]), (&[2, 1], &[0, 0]), (&many, &many), (&[1], &[1])] {
        assert_eq!(refused(&uneven, keys, values), 1);
    }
}

#[test]
fn columns_of_equal_length_and_rising_keys_are_never_refused_for_them() {
    let mut instrument = busy();
    for keys in [&[TOP][..], &[1, TOP], &[TOP - 1, TOP], &[1], &[1, 2, 3]] {
        assert_eq!(load(&mut instrument, Columns::new(keys.to_vec(), vec![0; keys.len()])), DONE);
        assert!(slides(&instrument).iter().map(|slide| slide.key).eq(keys.iter().copied()));
    }
}

#[test]
fn top_may_be_the_last_key_of_a_tree() {
    let mut records = records(40);
    records[39].key = TOP;
    let pages = pages_for(&records, PAGES).expect("room");
    assert_eq!(slides_of(&pages), Ok(records));
}

#[test]
fn after_a_refused_loading_a_restart_brings_the_register_back() {
    let mut instrument = busy();
    assert_eq!(load(&mut instrument, Columns::new(vec![2, 1], vec![0, 0])), Err(Refusal::NotRising));
    assert_eq!(instrument.make(Call::Begin).answer, Err(Refusal::Unsound));
    assert!(instrument.make(Call::Restart).answer.is_ok());
    assert_eq!(slides(&instrument), records(60)[30..]);
}

#[test]
fn a_restart_right_after_a_loading_finds_it_as_it_was() {
    for size in [0, 1, 14, 15, 24, 140, 141, 320] {
        let mut instrument = loaded(size);
        let before = instrument.clone();
        let changed = instrument.make(Call::Restart).answer;
        assert_eq!(changed, Ok(Answer::Restarted { ended: 0, changes: 0 }));
        assert!(instrument == before, "{size} records");
    }
}

#[test]
fn a_loading_needs_no_register_there() {
    let mut instrument = Instrument::lent(PAGES, SLOTS);
    instrument.areas.each_mut().into_iter().for_each(|area| area.fill(0xA5));
    assert_eq!(load(&mut instrument, columns(25)), DONE);
    assert_eq!(slides(&instrument), records(25));
}

/// Call by call, with a book beside it, and a restart of the stored image after each commit.
struct Worked {
    instrument: Instrument,
    book: Option<Book>,
}

impl Worked {
    fn loaded(size: usize) -> Worked {
        let mut worked = Worked { instrument: Instrument::lent(PAGES, SLOTS), book: None };
        assert_eq!(worked.make(Call::Load { columns: columns(size) }), DONE);
        worked
    }

    fn make(&mut self, made: Call) -> Result<Answer, Refusal> {
        let event = self.instrument.make(made);
        self.book = Book::after(self.book.take(), &event, &self.instrument.desk);
        event.answer
    }

    fn begin(&mut self) -> u32 {
        match self.make(Call::Begin) {
            Ok(Answer::Batch(batch)) => batch,
            other => panic!("{other:?}"),
        }
    }

    /// The stored image, restarted, holds the book's slides.
    fn check(&self) {
        let Outcome { areas, desk, .. } = call(&self.instrument.areas, &Desk::empty(), Call::Restart);
        let slides = sound(&areas, &desk).expect("sound").slides;
        let book = self.book.as_ref().expect("a book");
        assert!(slides.iter().map(|slide| (slide.key, slide.value)).eq(book.slides.clone()), "the leaves are the book");
    }
}

#[test]
fn a_loaded_register_grows_and_shrinks_to_few_slides() {
    let mut worked = Worked::loaded(150);
    let batch = worked.begin();
    (0..8).for_each(|key| assert_eq!(worked.make(Call::Insert { batch, key: 701 + key, value: key }), DONE));
    assert_eq!(worked.make(Call::Commit { batch }), DONE);
    worked.check();
    // From both ends by turns, down to three, so that pages join at every place of a level.
    let mut keys: std::collections::VecDeque<u32> = (1..=150).map(|number| 10 * number).collect();
    while keys.len() > 3 {
        let batch = worked.begin();
        for _ in 0..4 {
            let key = if keys.len() % 2 == 0 { keys.pop_front() } else { keys.pop_back() };
            let Some(key) = key.filter(|_| keys.len() > 2) else {
                break;
            };
            assert_eq!(worked.make(Call::Delete { batch, key }), DONE, "{key}");
        }
        assert_eq!(worked.make(Call::Commit { batch }), DONE);
        worked.check();
    }
    let left = sound(&worked.instrument.areas, &worked.instrument.desk).expect("sound");
    assert!(left.slides.len() < 14 && left.work.page(ROOT).level <= 1, "{} slides", left.slides.len());
}

#[test]
fn what_is_undone_after_a_loading_leaves_the_columns() {
    for end in 0..4 {
        let mut worked = Worked::loaded(45);
        let batch = worked.begin();
        for number in 1..=9 {
            assert_eq!(worked.make(Call::Delete { batch, key: 10 * number + 100 }), DONE);
            assert_eq!(worked.make(Call::Insert { batch, key: 330 + number, value: 5 }), DONE);
        }
        match end {
            0 => assert_eq!(worked.make(Call::Abort { batch }), DONE),
            1 => assert_eq!(worked.make(Call::Return { batch, mark: batch }), DONE),
            // With all records stored, and with none.
            2 => {
                assert_eq!(worked.make(Call::WriteOut { page: 3 }), DONE);
                assert!(worked.make(Call::Restart).is_ok());
            }
            _ => assert!(worked.make(Call::Restart).is_ok()),
        }
        assert_eq!(slides(&worked.instrument), records(45), "end {end}");
        worked.check();
    }
}

#[test]
fn a_cut_loading_is_followed_by_a_whole_one() {
    for stores in [0, 1, 2, 7, PAGES, PAGES + 1, PAGES + SLOTS - 1, PAGES + SLOTS] {
        for next in [Call::Format, Call::Load { columns: columns(33) }] {
            let mut instrument = busy();
            instrument.cut = Some(stores);
            let event = instrument.make(Call::Load { columns: columns(200) });
            assert!(event.was_cut && event.carried_out == stores);
            assert_eq!(Book::after(Some(Book::default()), &event, &instrument.desk), None, "outside the statement");
            assert_eq!(instrument.make(next).answer, DONE);
            let wanted = if next == Call::Format { Vec::new() } else { records(33) };
            assert_eq!(slides(&instrument), wanted);
        }
    }
}

#[test]
fn a_cut_loading_can_mix_two_registers() {
    // All pages are new and the old log is still there: no page is ahead of it, so a restart may well answer 0.
    let mut instrument = Instrument::lent(PAGES, SLOTS);
    assert_eq!(instrument.make(Call::Format).answer, DONE);
    let batch = begin(&mut instrument);
    assert_eq!(insert(&mut instrument, batch, 7), DONE);
    assert_eq!(instrument.make(Call::Commit { batch }).answer, DONE);
    instrument.cut = Some(PAGES);
    instrument.make(Call::Load { columns: columns(5) });
    assert!(instrument.make(Call::Restart).answer.is_ok());
    let keys: Vec<u32> = slides(&instrument).iter().map(|slide| slide.key).collect();
    assert_eq!(keys, [7, 10, 20, 30, 40, 50]);
}

#[test]
fn a_loading_is_explained() {
    let text = explain(b"L 2048 2048 9216 9216\nO 2 5 6 50 60\n").expect("commands");
    assert!(text.contains("> O 2 5 6 50 60\nO 0\n"), "{text}");
    assert!(text.contains("stable page 1: kind=1 level=0 count=2 right=0 high=4294967295 log=0 own=1 (5,50) (6,60)"));
}

#[test]
fn a_page_of_a_loaded_register_reads_as_it_was_made() {
    let Areas { stable_pages, .. } = loaded(200).areas;
    let pages = Pages::read(&stable_pages).expect("by the layout");
    assert_eq!(pages, pages_for(&records(200), PAGES).expect("room"));
    assert!(pages.list.iter().skip(ROOT).take(22).all(|page: &Page| page.log == 0));
}
