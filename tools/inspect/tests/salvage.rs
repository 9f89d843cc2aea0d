//! What salvage brings back: a register that restarts, with the slides of every case committed before the damage; and
//! files of the example host, with copies that are not whole.

use decode::layout::Areas;
use decode::sizes::{PAGE_BYTES, SLOT_BYTES};
use inspect::{salvage, slides, why, why_image, Image, Lost, Salvaged, Shape};
use reference::bench::areas_after;
use std::path::{Path, PathBuf};

/// What salvage says of a register that started empty, and the new image.
fn salvaged(image: &Image) -> (Image, Vec<String>) {
    let Salvaged { image, lines, .. } = salvage(image, Some(&[])).expect("lengths");
    (image.expect("an image"), lines)
}

fn image(name: &str) -> Image {
    Image::read(&format!("{}/images/{name}", env!("CARGO_MANIFEST_DIR"))).expect("an image")
}

/// A folder of this test's own, emptied.
fn folder(name: &str) -> PathBuf {
    let path = Path::new(env!("CARGO_TARGET_TMPDIR")).join(name);
    let _ = std::fs::remove_dir_all(&path);
    std::fs::create_dir_all(&path).expect("a folder");
    path
}

fn flip(areas: &mut Areas, area: usize, byte: usize) {
    areas.each_mut()[area][byte] ^= 0x10;
}

#[test]
fn damaged_pages_lose_nothing() {
    let sound = image("busy");
    for name in ["page", "redo"] {
        let saved = salvage(&image(name), None).expect("lengths").image.expect("no doubt");
        assert_eq!(why(&saved.areas).0, 0, "{name}");
        assert_eq!(slides(&saved.areas), slides(&sound.areas), "{name}");
    }
    for page in 0..sound.areas.page_count() {
        let mut damaged = image("busy");
        damaged.areas.stable_pages[page * PAGE_BYTES..][..PAGE_BYTES].fill(0x5A);
        let saved = salvage(&damaged, None).expect("lengths").image.expect("no doubt");
        assert_eq!(slides(&saved.areas), slides(&sound.areas), "page {page}");
    }
}

/// Whatever byte of the log is damaged, what is brought back restarts, and no record before the damage is given up.
#[test]
fn a_damaged_log_is_kept_up_to_the_damage() {
    let records = 99;
    for byte in (0..records * SLOT_BYTES).step_by(61) {
        let mut damaged = image("busy");
        flip(&mut damaged.areas, 3, byte);
        let (saved, _) = salvaged(&damaged);
        assert_eq!(why(&saved.areas).0, 0, "byte {byte}");
        let before = byte / SLOT_BYTES * SLOT_BYTES;
        assert_eq!(saved.areas.stable_log[..before], damaged.areas.stable_log[..before], "byte {byte}");
    }
}

/// The stable areas after these commands of the vectors.
fn image_of(commands: &str) -> Image {
    let Areas { stable_pages, stable_log, .. } = areas_after(commands.as_bytes()).expect("every line a command");
    Image::raw(stable_pages, stable_log)
}

/// Case 4 took back its second tray, records 7 and 8, by 9 and 10, before it filled a third.
const TAKEN_BACK: &str = "L 16384 16384 57600 57600\nZ\nB\nI 1 10 1\nC 1\nB\nI 4 20 2\nD 4 10\nI 4 30 3\nI 4 40 5\n\
                          T 4 6\nI 4 50 6\nC 4\n";

#[test]
fn a_lost_case_is_listed_with_what_it_kept() {
    let listed = |damaged: usize, updates: &str| {
        let mut image = image_of(TAKEN_BACK);
        // A spare bit.
        flip(&mut image.areas, 3, (damaged - 1) * SLOT_BYTES + 3);
        let (_, lines) = salvaged(&image);
        let wanted = format!("lost: batch 4, committed by record 12: {updates}");
        assert!(lines.contains(&wanted), "record {damaged} damaged: {lines:?}");
    };
    // The begin, or what was taken back, or the first of the undos cannot be read.
    for damaged in [4, 7, 8, 9] {
        listed(damaged, "insert 20 2, delete 10, insert 50 6");
    }
    listed(5, "delete 10, insert 50 6");
    listed(11, "insert 20 2, delete 10");
}

#[test]
fn salvage_writes_over_nothing() {
    let out = folder("over").join("out");
    let out = out.to_str().expect("a name");
    let saved = salvage(&image("record"), None).expect("lengths").image.expect("no doubt");
    saved.write(out).expect("new files");
    assert!(saved.write(out).is_err());
    let back = Image::read(out).expect("the new image");
    assert_eq!(back.areas.stable_log, saved.areas.stable_log);
}

/// A host's file with these areas, in a folder of its own.
fn host_file(test: &str, name: &str) -> PathBuf {
    let path = folder(test).join("slides");
    let host = Image { shape: Shape::Host, ..image(name) };
    host.write(path.to_str().expect("a name")).expect("a new file");
    path
}

/// Damage one copy (0 or 1) of a place.
fn damage_copy(path: &Path, place: usize, copy: usize) {
    let mut file = std::fs::read(path).expect("the file");
    file[((place / 64 * 2 + copy) * 64 + place % 64) * 4096 + 30] ^= 1;
    std::fs::write(path, file).expect("the file");
}

fn read(path: &Path) -> Image {
    Image::read(path.to_str().expect("a name")).expect("a host's file")
}

#[test]
fn one_damaged_copy_is_named_and_harmless() {
    let path = host_file("one-copy", "busy");
    assert!(read(&path).stale_copies.is_empty());
    damage_copy(&path, 897, 0);
    damage_copy(&path, 28, 1);
    let host = read(&path);
    assert_eq!(host.stale_copies, [(Lost::Page(27), 2), (Lost::Slot(1), 1)]);
    assert_eq!(host.areas, image("busy").areas);
    assert_eq!(why_image(&host).0, 0);
}

#[test]
fn two_damaged_copies_are_named_and_salvaged() {
    let path = host_file("both-copies", "busy");
    for place in [897 + 89, 5] {
        damage_copy(&path, place, 0);
        damage_copy(&path, place, 1);
    }
    let host = read(&path);
    assert_eq!(host.lost, [Lost::Page(4), Lost::Slot(90)]);
    assert_eq!(why_image(&host).1, "the host ends with status 2: neither copy of page 4 (place 5) is whole");
    let salvaged = salvage(&host, None).expect("lengths");
    let saved = salvaged.image.expect("no doubt");
    assert_eq!(salvaged.lines[0], "kept: records 1 to 89");
    assert_eq!(saved.shape, Shape::Host);
    let out = path.with_file_name("saved");
    saved.write(out.to_str().expect("a name")).expect("a new file");
    assert_eq!(why_image(&read(&out)).0, 0);
}

#[test]
fn lost_counts_are_found_by_the_copies() {
    let path = host_file("counts", "busy");
    damage_copy(&path, 0, 0);
    damage_copy(&path, 0, 1);
    let host = read(&path);
    assert_eq!(host.lost, [Lost::Counts]);
    assert_eq!(host.areas, image("busy").areas);
}
