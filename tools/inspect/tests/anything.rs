//! Anything at all: no bytes and no lengths end the program, and what salvage writes always restarts or runs short.

use decode::layout::Entry;
use decode::sizes::TOP;
use inspect::{diff, log, salvage, slides, summary, svg, tree, why, Image, Which};
use reference::bench::any::any_areas;
use reference::bench::forge::forge_image;
use reference::bench::Random;

const SLIDES: [Entry; 3] = [Entry { key: 10, value: 1 }, Entry { key: 20, value: 2 }, Entry { key: TOP, value: 3 }];

fn try_image(image: &Image) {
    let lines = summary(image).len() + log(image, Which::All).len() + log(image, Which::Page(1)).len();
    assert!(lines > 0);
    let well = why(&image.areas).0 == 0;
    assert!(slides(&image.areas).is_ok() || !well);
    assert_eq!(tree(&image.areas).is_ok(), svg(&image.areas).is_ok());
    assert!(diff(&image.areas, &image.areas).is_empty());
    for columns in [None, Some(&[][..]), Some(&SLIDES)] {
        let Ok(salvaged) = salvage(image, columns) else {
            continue;
        };
        assert!(salvaged.image.is_some() || columns.is_none() && !salvaged.is_well);
        let number = salvaged.image.map_or(0, |saved| why(&saved.areas).0);
        assert!([0, 17, 18].contains(&number), "{number}");
    }
}

#[test]
fn any_bytes_of_any_lengths() {
    let mut random = Random::new(61);
    for _ in 0..300 {
        let areas = any_areas(&mut random);
        try_image(&Image::raw(areas.stable_pages, areas.stable_log));
    }
}

#[test]
fn forged_images() {
    let mut random = Random::new(62);
    let busy = Image::read(concat!(env!("CARGO_MANIFEST_DIR"), "/images/busy")).expect("an image");
    for _ in 0..200 {
        if let Some(areas) = forge_image(&mut random, &busy.areas) {
            try_image(&Image::raw(areas.stable_pages, areas.stable_log));
        }
    }
}
