//! The slides that a restart of the image leaves, by rising key.

use decode::layout::Areas;
use decode::rules::slides_of;
use decode::sizes::{MOST_PAGES, MOST_SLOTS};
use decode::Refusal;
use reference::calls::{try_restart, Restarted};

/// Where a restart runs short, the slides that it leaves in areas of the largest size.
pub fn slides(areas: &Areas) -> Result<Vec<String>, String> {
    let restarted = match try_restart(areas) {
        Err(fault) if matches!(fault.refusal, Refusal::SlotsShort | Refusal::PagesShort) => {
            try_restart(&areas.grown(MOST_PAGES, MOST_SLOTS))
        }
        tried => tried,
    };
    let Restarted { work, .. } = restarted.map_err(|fault| format!("restart answers {}: {fault}", fault.number()))?;
    let slides = slides_of(&work.pages).map_err(|fault| fault.to_string())?;
    Ok(slides.iter().map(|slide| format!("slide {} {}", slide.key, slide.value)).collect())
}
