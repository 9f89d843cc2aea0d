//! Registers that were imported: salvage brings them back with their columns; without them it writes nothing, and names the
//! slides that are in no record; and columns of another register are found out.

use decode::layout::{Areas, Entry};
use decode::sizes::{PAGE_BYTES, SLOT_BYTES};
use inspect::{log, salvage, slides, Image, Salvaged, Which};
use reference::bench::Instrument;
use reference::calls::{Answer, Call, Columns};

const PAGES: usize = 60;
const SLOTS: usize = 200;

fn columns(size: usize) -> Vec<Entry> {
    (1..=size as u32).map(|number| Entry::new(10 * number, number ^ 1)).collect()
}

fn image(areas: &Areas) -> Image {
    Image::raw(areas.stable_pages.clone(), areas.stable_log.clone())
}

fn load(columns: &[Entry]) -> Call {
    Call::Load { columns: Columns::of_records(columns.iter().map(|slide| (slide.key, slide.value))) }
}

/// The stored image after these calls, which are all done.
fn after(calls: impl IntoIterator<Item = Call>) -> Image {
    let mut instrument = Instrument::lent(PAGES, SLOTS);
    calls.into_iter().for_each(|call| assert!(instrument.make(call).answer.is_ok(), "{call:?}"));
    image(&instrument.areas)
}

/// Imported, then changed at both ends by a case that is committed and one that is not. Of its pages those are written out
/// whose numbers are multiples of this.
fn worked(size: usize, written_out: usize) -> Image {
    let (last, page_count) = (10 * size as u32, PAGES as u32);
    let calls = [
        load(&columns(size)),
        Call::Begin,
        Call::Insert { batch: 1, key: 5, value: 50 },
        Call::Insert { batch: 1, key: last + 5, value: 51 },
        Call::Commit { batch: 1 },
        Call::Begin,
        Call::Delete { batch: 5, key: 5 },
    ];
    let pages = (0..page_count).step_by(written_out);
    after(calls.into_iter().chain(pages.map(|page| Call::WriteOut { page })))
}

fn flip(area: &mut [u8], byte: usize) {
    area[byte] ^= 0x10;
}

fn destroy_page(image: &mut Image, page: usize) {
    image.areas.stable_pages[page * PAGE_BYTES..][..PAGE_BYTES].fill(0x5A);
}

fn is_in_doubt(salvaged: &Salvaged) -> bool {
    assert!(
        salvaged.is_well
            || salvaged.lines.iter().any(|line| line.starts_with("page ") || line.starts_with("in doubt: "))
    );
    salvaged.lines.iter().any(|line| line.starts_with("in doubt: "))
}

fn slides_after(salvaged: &Salvaged) -> Vec<String> {
    slides(&salvaged.image.as_ref().expect("an image").areas).expect("a restart")
}

#[test]
fn with_its_columns_a_register_loses_nothing_by_damaged_pages() {
    for (size, written_out) in [(1, 1), (3, 50), (12, 2), (15, 1), (25, 2), (150, 3), (240, 50)] {
        let whole = worked(size, written_out);
        let (wanted, columns) = (slides(&whole.areas).expect("a restart"), columns(size));
        assert_eq!(wanted.len(), size + 2);
        for page in 0..=PAGES {
            let mut damaged = image(&whole.areas);
            // Every page by itself, and then all of them.
            (0..PAGES)
                .filter(|other| page == PAGES || page == *other)
                .for_each(|page| destroy_page(&mut damaged, page));
            let salvaged = salvage(&damaged, Some(&columns)).expect("lengths");
            assert!(salvaged.is_well, "{size} slides, page {page}: {:?}", salvaged.lines);
            assert_eq!(slides_after(&salvaged), wanted, "{size} slides, page {page}");
        }
    }
}

#[test]
fn without_its_columns_nothing_is_written_whatever_one_place_is_damaged() {
    for (size, written_out) in [(15, 1), (15, 50), (25, 2), (150, 3)] {
        let whole = worked(size, written_out);
        for page in 0..PAGES {
            let mut damaged = image(&whole.areas);
            destroy_page(&mut damaged, page);
            assert!(salvage(&damaged, None).expect("lengths").image.is_none(), "{size} slides, page {page}");
        }
    }
    // Also where all slides are in one page: while that can be read.
    for (size, written_out) in [(1, 50), (3, 1), (12, 2), (15, 1), (150, 3)] {
        let whole = worked(size, written_out);
        for byte in (0..8 * SLOT_BYTES).step_by(7) {
            let mut damaged = image(&whole.areas);
            flip(&mut damaged.areas.stable_log, byte);
            assert!(salvage(&damaged, None).expect("lengths").image.is_none(), "{size} slides, byte {byte}");
        }
    }
}

/// The log by itself fits an empty register: only the root tells of more slides.
#[test]
fn a_few_imported_slides_are_named_though_the_log_fits() {
    let last = [
        "in doubt: slides were there before the log began, or what is named here is damaged",
        "nothing is written: give the columns that were imported, or an empty file if there were none",
    ];
    for (written_out, root) in [
        (50, "page 1, log number 0: not what an empty register and the log give; filed by no record that can be read: (10,0) (20,3)"),
        (1, "page 1, log number 6: not what an empty register and the log give; filed by no record that can be read: (10,0) (20,3)"),
    ] {
        let salvaged = salvage(&worked(2, written_out), None).expect("lengths");
        assert_eq!(salvaged.lines, [root, last[0], last[1]]);
        assert!(!salvaged.is_well && salvaged.image.is_none());
    }
}

/// Slot 3 is lost. Its slide may be one of those that no record tells of, and no other.
#[test]
fn a_lost_slot_accounts_for_one_slide() {
    let damaged = |size: usize| {
        let mut image = if size > 0 { worked(size, 1) } else { started_empty(1) };
        image.areas.stable_log[2 * SLOT_BYTES..][..SLOT_BYTES].fill(0xFF);
        salvage(&image, None).expect("lengths")
    };
    let Salvaged { image, lines, is_well } = damaged(0);
    assert!(image.is_some() && !is_well);
    assert!(
        lines.contains(&"page 1, log number 6: filed by no record that can be read: (5,51)".to_string()),
        "{lines:?}"
    );
    assert!(damaged(1).image.is_none());
}

/// The same two cases in a register that started empty, and this page written out.
fn started_empty(page: u32) -> Image {
    after([
        Call::Format,
        Call::Begin,
        Call::Insert { batch: 1, key: 4, value: 50 },
        Call::Insert { batch: 1, key: 5, value: 51 },
        Call::Commit { batch: 1 },
        Call::Begin,
        Call::Delete { batch: 5, key: 4 },
        Call::WriteOut { page },
    ])
}

/// All records are lost, and the pages that were never changed. The slides in each of the two leaves could have been in
/// the records; those in both could not.
#[test]
fn lost_slots_account_for_no_more_slides_in_all() {
    let in_and_out = |first, key| {
        let (put_in, taken_out) =
            (Call::Insert { batch: first, key, value: 0 }, Call::Delete { batch: first + 3, key });
        let commit = |batch| Call::Commit { batch };
        [Call::Begin, put_in, commit(first), Call::Begin, taken_out, commit(first + 3)]
    };
    let cases = in_and_out(1, 151).into_iter().chain(in_and_out(7, 5));
    let written_out = [2, 3].map(|page| Call::WriteOut { page });
    let mut image = after([load(&columns(15))].into_iter().chain(cases).chain(written_out));
    [0, 1].into_iter().for_each(|page| destroy_page(&mut image, page));
    image.areas.stable_log[..12 * SLOT_BYTES].fill(0xFF);
    let salvaged = salvage(&image, None).expect("lengths");
    assert!(salvaged.image.is_none());
    let logs: Vec<&str> = salvaged.lines.iter().filter_map(|line| line.split(':').next()).collect();
    assert_eq!(logs[..2], ["page 2, log number 11", "page 3, log number 5"]);
}

#[test]
fn a_log_that_does_not_fit_is_a_doubt_where_no_page_decides() {
    let mut imported = worked(15, 1);
    (0..PAGES).for_each(|page| destroy_page(&mut imported, page));
    let Salvaged { image, lines, .. } = salvage(&imported, None).expect("lengths");
    assert!(image.is_none());
    assert_eq!(
        lines[0],
        "the log does not fit an empty register: page 2, where record 2 is to be redone: it is no leaf"
    );
    // The map and the root are as they were formatted, so it is record 3 that is damaged: it files 4 in place of 5.
    let mut empty = started_empty(0);
    empty.areas.stable_log[2 * SLOT_BYTES + 23] ^= 1;
    let Salvaged { image, lines, is_well } = salvage(&empty, None).expect("lengths");
    assert!(image.is_some() && is_well, "{lines:?}");
    assert_eq!(lines[0], "kept: records 1 to 2");
}

/// The begin is lost, and no page has an imported slide: the records that took slides out, or moved them, tell of them.
#[test]
fn records_tell_of_imported_slides_too() {
    let lines = |mut image: Image, lost: &[usize]| {
        image.areas.stable_log[..SLOT_BYTES].fill(0xFF);
        lost.iter().for_each(|page| destroy_page(&mut image, *page));
        let Salvaged { image, lines, is_well } = salvage(&image, None).expect("lengths");
        assert!(!is_well);
        (image.is_some(), lines)
    };
    let delete = |key| Call::Delete { batch: 1, key };
    let write_out = |page| Call::WriteOut { page };
    // One slide may have been filed by the record that is lost, and two may not.
    let (written, said) = lines(after([load(&columns(1)), Call::Begin, delete(10), write_out(1)]), &[]);
    assert!(written && said.contains(&"record 2: filed by no record that can be read: (10,0)".to_string()), "{said:?}");
    let (written, said) = lines(after([load(&columns(2)), Call::Begin, delete(10), delete(20), write_out(1)]), &[]);
    assert!(!written, "{said:?}");
    let split = [load(&columns(14)), Call::Begin, Call::Insert { batch: 1, key: 5, value: 0 }, write_out(1)];
    let (written, said) = lines(after(split), &[0, 1]);
    assert!(!written, "{said:?}");
    assert!(said[0].starts_with("record 2: filed by no record that can be read: (80,9) (90,8) "), "{said:?}");
}

/// A root of 14 children is split too, and its children are no slides.
#[test]
fn children_that_a_record_moves_are_no_slides() {
    let mut instrument = Instrument::lent(PAGES, SLOTS);
    instrument.make(load(&columns(140))).answer.expect("0");
    for key in 11..=18 {
        let Ok(Answer::Batch(batch)) = instrument.make(Call::Begin).answer else {
            panic!("no batch");
        };
        instrument.make(Call::Insert { batch, key, value: 7 }).answer.expect("0");
        instrument.make(Call::Commit { batch }).answer.expect("0");
    }
    let image = image(&instrument.areas);
    assert!(log(&image, Which::All)
        .iter()
        .any(|line| line.contains(" split page 1 new ") && line.contains(" level 1 ")));
    let salvaged = salvage(&image, Some(&columns(140))).expect("lengths");
    assert!(salvaged.is_well, "{:?}", salvaged.lines);
}

/// The log files slide 10 anew, with another value.
#[test]
fn a_slide_is_its_key_and_its_value() {
    let image = after([
        load(&columns(2)),
        Call::Begin,
        Call::Delete { batch: 1, key: 10 },
        Call::Insert { batch: 1, key: 10, value: 9 },
        Call::Commit { batch: 1 },
    ]);
    let lines = salvage(&image, None).expect("lengths").lines;
    assert!(lines[0].ends_with("filed by no record that can be read: (10,0) (20,3)"), "{lines:?}");
}

#[test]
fn columns_of_another_register_are_found_out() {
    let whole = worked(25, 2);
    let mut value = columns(25);
    value[12].value += 1;
    let mut key = columns(25);
    key[3].key += 1;
    for (what, wrong) in [("a value", value), ("a key", key), ("one less", columns(24)), ("one more", columns(26))] {
        let salvaged = salvage(&whole, Some(&wrong)).expect("lengths");
        assert!(is_in_doubt(&salvaged) && !salvaged.is_well, "{what}: {:?}", salvaged.lines);
        // It is still written: whoever has no others makes do with these.
        assert!(salvaged.image.is_some(), "{what}");
        let doubt = "in doubt: the register did not start from these columns, or what is named here is damaged";
        assert!(salvaged.lines.contains(&doubt.to_string()), "{what}: {:?}", salvaged.lines);
    }
    let refused = salvage(&whole, Some(&columns(600))).map(|_| ()).expect_err("too many");
    assert_eq!(refused, "600 slides do not fit 60 pages: these are not the columns of this register");
}

/// One page or the log is damaged, but not what the start is known by: that is no reason to doubt it.
#[test]
fn a_damaged_page_beside_a_sure_start_is_named() {
    let mut image = started_empty(1);
    // A leaf that was never there, with log number 0.
    let other = worked(15, 50).areas.stable_pages;
    image.areas.stable_pages[2 * PAGE_BYTES..][..PAGE_BYTES].copy_from_slice(&other[2 * PAGE_BYTES..][..PAGE_BYTES]);
    let salvaged = salvage(&image, None).expect("lengths");
    assert!(!is_in_doubt(&salvaged) && !salvaged.is_well && salvaged.image.is_some());
    let said =
        "page 2, log number 0: not what an empty register and the log give; filed by no record that can be read: (10,0)";
    assert!(salvaged.lines.iter().any(|line| line.starts_with(said)), "{:?}", salvaged.lines);
}
