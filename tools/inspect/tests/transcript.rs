//! Every command on the images kept in `images`: what is printed is what `transcript.txt` says, byte for byte. A line
//! `$ inspect ..` is run, and the lines up to the next one are wanted.

use std::process::Command;

const TRANSCRIPT: &str = include_str!("transcript.txt");
const IMAGES: &str = concat!(env!("CARGO_MANIFEST_DIR"), "/images");

/// Standard output, then what went to standard error.
fn inspect(words: &str) -> String {
    let program = Command::new(env!("CARGO_BIN_EXE_inspect")).args(words.split(' ')).current_dir(IMAGES).output();
    let output = program.expect("the program runs");
    String::from_utf8([output.stdout, output.stderr].concat()).expect("text")
}

#[test]
fn what_is_printed_is_what_the_transcript_says() {
    let sessions: Vec<&str> = TRANSCRIPT.split("$ inspect ").skip(1).collect();
    for session in &sessions {
        let (words, wanted) = session.split_once('\n').expect("a line");
        assert_eq!(inspect(words), wanted, "inspect {words}");
    }
    for command in ["summary", "why", "log", "tree", "slides", "diff"] {
        assert!(sessions.iter().any(|session| session.starts_with(command)), "{command} is tried");
    }
}

#[test]
fn a_picture_has_a_box_for_every_page_and_every_mark_is_closed() {
    let picture = inspect("tree grown svg");
    let tree = inspect("tree grown");
    let pages = tree.lines().filter(|line| line.starts_with("  page ")).count();
    assert_eq!(picture.matches("<rect ").count(), pages);
    assert_eq!(picture.matches("stroke-dasharray").count(), 1, "one page is indirect");
    assert_eq!(picture.matches('<').count(), picture.matches('>').count());
    for name in ["svg", "defs", "marker", "g", "title", "text"] {
        let opened = picture.matches(&format!("<{name} ")).count() + picture.matches(&format!("<{name}>")).count();
        assert_eq!(opened, picture.matches(&format!("</{name}>")).count(), "{name}");
    }
}

#[test]
fn the_exit_status_tells_whether_all_is_well() {
    let status = |words: &[&str]| {
        let mut program = Command::new(env!("CARGO_BIN_EXE_inspect"));
        program.args(words).current_dir(IMAGES).output().expect("the program runs").status.code()
    };
    assert_eq!(status(&["why", "busy"]), Some(0));
    assert_eq!(status(&["why", "page"]), Some(1));
    assert_eq!(status(&["diff", "busy", "busy"]), Some(0));
    assert_eq!(status(&["diff", "busy", "page"]), Some(1));
    assert_eq!(status(&["tree", "page"]), Some(2));
    assert_eq!(status(&["why", "nowhere"]), Some(2));
    assert_eq!(status(&[]), Some(2));
}
