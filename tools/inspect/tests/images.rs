//! The images kept in `images` are what the reference model makes of the commands beside them.

use reference::bench::areas_after;
use std::path::Path;

#[test]
fn every_image_is_what_its_commands_make() {
    let folder = Path::new(concat!(env!("CARGO_MANIFEST_DIR"), "/images"));
    let read = |name: &str| std::fs::read(folder.join(name)).unwrap_or_else(|error| panic!("{name}: {error}"));
    for name in ["busy", "grown", "page", "record", "redo", "tree", "short", "imported", "linked"] {
        let areas = areas_after(&read(&format!("{name}.in"))).expect("commands");
        assert!(areas.stable_pages == read(&format!("{name}.pages")), "{name}.pages");
        assert!(areas.stable_log == read(&format!("{name}.log")), "{name}.log");
    }
}
