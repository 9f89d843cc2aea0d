//! Which rule an image breaks, and where: one sentence, with the number that a restart answers.

use crate::image::Image;
use crate::text::plural;
use decode::layout::Areas;
use decode::sizes::{MOST_PAGES, MOST_SLOTS};
use decode::Refusal;
use reference::calls::{try_restart, Answer};

/// What a restart of the stable areas answers, and why.
pub fn why(areas: &Areas) -> (u32, String) {
    match try_restart(areas) {
        Ok(restarted) => match restarted.answer {
            Answer::Restarted { ended, changes } => (0, ends(ended as usize, changes as usize)),
            answer => unreachable!("a restart answers {answer:?}"),
        },
        Err(fault) => (u32::from(fault.number()), fault.to_string()),
    }
}

fn ends(ended: usize, changes: usize) -> String {
    let batches = plural(ended, "open batch", "open batches");
    format!("it ends {batches} and redoes {}", plural(changes, "page change", "page changes"))
}

/// The same in a line; a host's file may be refused before its register is looked at.
pub fn why_image(image: &Image) -> (u32, String) {
    let (number, sentence) = why(&image.areas);
    let line = match image.lost.first() {
        Some(lost) => format!("the host ends with status 2: neither copy of {lost} is whole"),
        None if image.lacks_stores => {
            "the host ends with status 2: of the last call's stores some are not there".to_string()
        }
        None => format!("restart answers {number}: {sentence}{}", enough(&image.areas, number)),
    };
    (number, line)
}

/// How much to lend, where a restart runs short.
fn enough(areas: &Areas, number: u32) -> String {
    let short = [Refusal::SlotsShort, Refusal::PagesShort].map(|refusal| u32::from(refusal.number()));
    if !short.contains(&number) {
        return String::new();
    }
    match try_restart(&areas.grown(MOST_PAGES, MOST_SLOTS)) {
        Ok(restarted) => {
            let (records, used) = (restarted.work.log.records.len(), MOST_PAGES - restarted.work.pages.free_count());
            format!("; at the largest size it would end with {records} slots and {used} pages used")
        }
        Err(_) => "; at the largest size too".to_string(),
    }
}
