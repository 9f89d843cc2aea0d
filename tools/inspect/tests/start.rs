//! What salvage starts from: the pages of columns are those of the vectors; whole registers of random runs are in doubt just
//! where they were imported and nobody says so; and the program's status.

use decode::layout::Entry;
use inspect::{salvage, slides, Image};
use reference::bench::{trace, Command as Line, Instrument};
use reference::calls::{Answer, Call};
use std::path::Path;
use std::process::Command;

/// With loadings, cuts and growth in the runs.
#[test]
fn a_whole_register_is_in_doubt_just_where_its_columns_are_not_given() {
    let mut imported = 0;
    for seed in 1..=4 {
        let mut instrument = Instrument::default();
        let mut start = None;
        for (line, step) in trace(seed, 120).iter().zip(0..) {
            let event = instrument.run(line);
            if let (Line::Call(call), Some(event)) = (line, event) {
                start = match call {
                    Call::Format | Call::Load { .. } if event.was_cut => None,
                    Call::Format if event.finished() == Some(Answer::Done) => Some(Vec::new()),
                    Call::Load { columns } if event.finished() == Some(Answer::Done) => {
                        Some(columns.records().collect())
                    }
                    _ => start,
                };
            }
            if let Some(start) = start.as_ref().filter(|_| step % 4 == 0) {
                imported += usize::from(!start.is_empty());
                let areas = &instrument.areas;
                check_whole(&Image::raw(areas.stable_pages.clone(), areas.stable_log.clone()), start);
            }
        }
    }
    assert!(imported > 50, "{imported}");
}

fn check_whole(image: &Image, start: &[Entry]) {
    let salvaged = salvage(image, Some(start)).expect("lengths");
    assert!(salvaged.is_well, "{:?}", salvaged.lines);
    let saved = salvaged.image.expect("an image");
    assert_eq!(saved.areas.stable_log, image.areas.stable_log);
    assert_eq!(slides(&saved.areas), slides(&image.areas));
    assert_eq!(salvage(image, None).expect("lengths").image.is_none(), !start.is_empty());
}

/// The program on the kept image, with this text for its columns: its status, what it says, and whether it writes.
fn program(name: &str, columns: Option<&str>) -> (Option<i32>, String, bool) {
    let folder = Path::new(env!("CARGO_TARGET_TMPDIR")).join(name);
    let _ = std::fs::remove_dir_all(&folder);
    std::fs::create_dir_all(&folder).expect("a folder");
    let mut program = Command::new(env!("CARGO_BIN_EXE_inspect"));
    program.args(["salvage", concat!(env!("CARGO_MANIFEST_DIR"), "/images/imported"), "out"]).current_dir(&folder);
    if let Some(text) = columns {
        std::fs::write(folder.join("columns"), text).expect("a file");
        program.arg("columns");
    }
    let output = program.output().expect("the program runs");
    let said = String::from_utf8([output.stdout, output.stderr].concat()).expect("text");
    let written = folder.join("out.pages").exists() && folder.join("out.log").exists();
    assert_eq!(written, folder.join("out.pages").exists() || folder.join("out.log").exists());
    (output.status.code(), said, written)
}

#[test]
fn the_exit_status_tells_whether_the_start_is_in_doubt() {
    let text = include_str!("../images/imported.txt");
    let (status, said, written) = program("start-none", None);
    assert_eq!((status, written), (Some(1), false));
    assert!(said.contains("page 4, log number 6: filed by no record that can be read: (210,211) "), "{said}");
    // Record 9 takes slide 20 out, which page 2 has.
    assert!(said.contains("\nrecord 3: filed by no record that can be read: (150,151)\n"), "{said}");
    assert!(!said.contains("\nrecord 9"), "{said}");
    assert!(
        said.contains("the log does not fit an empty register: page 2, where record 2 is to be redone: "),
        "{said}"
    );
    let (status, said, written) = program("start-columns", Some(text));
    assert_eq!((status, written), (Some(0), true));
    assert!(said.starts_with("started from: 25 slides\nkept: records 1 to 9\n"), "{said}");
    let (status, said, written) = program("start-empty", Some(""));
    assert_eq!((status, written), (Some(1), true));
    assert!(said.starts_with("started from: 0 slides\nkept: record 1\n"), "{said}");
    let other = text.replace("90 91", "90 92");
    assert_eq!(program("start-other", Some(&other)).0, Some(1));
    let broken = text.replace("90 91", "90");
    assert_eq!(program("start-broken", Some(&broken)), (Some(2), "columns:10: not two numbers\n".to_string(), false));
}

/// The hash of the vectors.
fn fnv1a(bytes: &[u8]) -> u64 {
    bytes.iter().fold(0xcbf2_9ce4_8422_2325, |hash, byte| (hash ^ u64::from(*byte)).wrapping_mul(0x0000_0100_0000_01b3))
}

/// The vectors give the hash of the stable pages after each loading; with an empty log, salvage writes just these.
#[test]
fn the_pages_of_columns_are_those_of_the_vectors() {
    let mut loadings = 0;
    for name in ["u03-directed", "u03-largest", "u03-1", "u03-2", "u03-3", "u03-4", "u03-5", "u03-6"] {
        let read = |end: &str| {
            let path = format!("{}/../../vectors/{name}.{end}", env!("CARGO_MANIFEST_DIR"));
            std::fs::read_to_string(&path).unwrap_or_else(|error| panic!("{path}: {error}"))
        };
        let (input, output) = (read("in"), read("out"));
        let mut answers = output.lines();
        let mut lengths = [0; 4];
        for line in input.lines() {
            let command = Line::read(line.as_bytes()).expect("a command");
            match command {
                Line::Lend(lent) => lengths = lent,
                Line::Call(call) => {
                    let answer: Vec<&str> = answers.next().expect("an answer").split(' ').collect();
                    if let (Call::Load { columns }, "0") = (call, answer[1]) {
                        let empty = Image::raw(vec![0; lengths[1]], vec![0; lengths[3]]);
                        let columns: Vec<Entry> = columns.records().collect();
                        let saved = salvage(&empty, Some(&columns)).expect("lengths").image.expect("an image");
                        assert_eq!(format!("{:016x}", fnv1a(&saved.areas.stable_pages)), answer[5], "{name}: {line}");
                        loadings += 1;
                    }
                }
                _ => {}
            }
        }
    }
    assert!(loadings >= 30, "{loadings}");
}
