//! The sessions of document 01, in its words. 256 pages and 1,024 slots unless said.

use reference::bench::{run_console, Instrument};
use reference::calls::{sound, Answer, Call, Sound};
use reference::layout::{Entry, Kind, PageKind};
use reference::sizes::{ROOT, TOP};
use reference::Refusal;

type Given = Result<Answer, Refusal>;

const DONE: Given = Ok(Answer::Done);

fn formatted(pages: usize, slots: usize) -> Instrument {
    let mut instrument = Instrument::lent(pages, slots);
    assert_eq!(instrument.make(Call::Format).answer, DONE);
    instrument
}

fn new_register() -> Instrument {
    formatted(256, 1024)
}

fn begin(instrument: &mut Instrument) -> u32 {
    match instrument.make(Call::Begin).answer {
        Ok(Answer::Batch(batch)) => batch,
        other => panic!("{other:?}"),
    }
}

fn insert(instrument: &mut Instrument, batch: u32, key: u32) -> Given {
    instrument.make(Call::Insert { batch, key, value: key / 10 }).answer
}

fn sound_of(instrument: &Instrument) -> Sound {
    sound(&instrument.areas, &instrument.desk).expect("sound")
}

fn keys(sound: &Sound, page: usize) -> Vec<u32> {
    sound.work.page(page).entries.iter().map(|entry| entry.key).collect()
}

/// One batch inserts 10, 20 up to 150.
fn fifteen_slides() -> Instrument {
    let mut instrument = new_register();
    let batch = begin(&mut instrument);
    for key in (10..=150).step_by(10) {
        assert_eq!(insert(&mut instrument, batch, key), DONE);
    }
    instrument
}

#[test]
fn a_batch_begun_in_a_new_register_finds_nothing() {
    let mut instrument = new_register();
    let batch = begin(&mut instrument);
    for key in [0, 1, 500, TOP] {
        assert_eq!(instrument.make(Call::Fetch { batch, key }).answer, Err(Refusal::Absent));
    }
    assert_eq!(instrument.make(Call::Next { batch, key: TOP }).answer, Err(Refusal::Absent));
}

#[test]
fn fifteen_slides_split_the_root() {
    let sound = sound_of(&fifteen_slides());
    assert_eq!(keys(&sound, ROOT), [10, 20, 30, 40, 50, 60, 70]);
    assert_eq!(sound.work.page(ROOT).right, 255);
    assert_eq!(keys(&sound, 255), [80, 90, 100, 110, 120, 130, 140, 150]);
    let kinds: Vec<Kind> = sound.work.log.records[15..].iter().map(|record| record.kind).collect();
    assert_eq!(kinds, [Kind::Split, Kind::Insert]);
}

#[test]
fn a_sixteenth_slide_raises_the_root() {
    let mut instrument = fifteen_slides();
    assert_eq!(insert(&mut instrument, 1, 160), DONE);
    let sound = sound_of(&instrument);
    assert_eq!(sound.work.log.records[17].kind, Kind::Raise);
    assert_eq!(sound.work.page(ROOT).entries, [Entry::to_child(70, 254), Entry::to_child(TOP, 255)]);
}

#[test]
fn four_deletes_merge_the_leaves() {
    let mut instrument = fifteen_slides();
    assert_eq!(insert(&mut instrument, 1, 160), DONE);
    for key in [10, 20, 30, 40] {
        assert_eq!(instrument.make(Call::Delete { batch: 1, key }).answer, DONE);
    }
    let sound = sound_of(&instrument);
    let last: Vec<Kind> = sound.work.log.records.iter().rev().take(3).rev().map(|record| record.kind).collect();
    assert_eq!(last, [Kind::Unlink, Kind::Merge, Kind::Delete]);
    assert_eq!(sound.work.page(255).kind, PageKind::Free);
    assert_eq!(keys(&sound, 254).len(), 12);
}

#[test]
fn a_pending_key_is_held() {
    let mut instrument = new_register();
    let first = begin(&mut instrument);
    let second = begin(&mut instrument);
    assert_eq!(insert(&mut instrument, first, 5), DONE);
    assert_eq!(instrument.make(Call::Fetch { batch: second, key: 5 }).answer, Err(Refusal::Held));
}

#[test]
fn a_ninth_begin_is_refused() {
    let mut instrument = new_register();
    for _ in 0..8 {
        begin(&mut instrument);
    }
    assert_eq!(instrument.make(Call::Begin).answer, Err(Refusal::EightOpen));
}

#[test]
fn sixty_seven_slots_take_one_insert_and_sixty_six_none() {
    for (slots, answer) in [(67, DONE), (66, Err(Refusal::SlotsShort))] {
        let mut instrument = formatted(256, slots);
        let batch = begin(&mut instrument);
        assert_eq!(insert(&mut instrument, batch, 1), answer);
    }
}

#[test]
fn sixteen_pages_take_one_pending_insert() {
    let mut instrument = formatted(16, 1024);
    let batch = begin(&mut instrument);
    assert_eq!(insert(&mut instrument, batch, 1), DONE);
    assert_eq!(insert(&mut instrument, batch, 2), Err(Refusal::PagesShort));
}

#[test]
fn a_cut_loses_what_was_not_committed() {
    let mut instrument = new_register();
    let batch = begin(&mut instrument);
    assert_eq!(insert(&mut instrument, batch, 5), DONE);
    instrument.cut = Some(0);
    instrument.make(Call::Begin);
    assert_eq!(instrument.make(Call::Restart).answer, Ok(Answer::Restarted { ended: 0, changes: 0 }));
    assert!(sound_of(&instrument).slides.is_empty());
}

#[test]
fn the_console_session() {
    let input = b"B\nI 1 500 7\nC 1\nB\nD 4 500\nW 1\nX\nB\nF 9 500\n";
    assert_eq!(run_console(input), "B 0 1\nI 0\nC 0\nB 0 4\nD 0\nW 0\nX 0 1 0\nB 0 9\nF 0 7\n");
}

#[test]
fn any_other_console_line_prints_a_question_mark() {
    let others = [
        "",
        " ",
        "b",
        "B ",
        " B",
        "B 1",
        "Z",
        "R",
        "I 1 2",
        "F  1 2",
        "F 1 +2",
        "F 1 4294967296",
        "B\r",
        "X 1",
        "M 1",
        "T 1 1",
        "V 1 1",
        "d 0 1",
    ];
    for line in others {
        assert_eq!(run_console(format!("{line}\n").as_bytes()), "?\n", "{line:?}");
    }
    assert_eq!(run_console(b"\xFF\nB"), "?\nB 0 1\n");
    assert_eq!(run_console(b"F 1 004294967295"), "F 12\n");
    assert_eq!(run_console(b""), "");
}
