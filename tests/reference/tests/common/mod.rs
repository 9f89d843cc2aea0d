//! What several tests use: runs of commands, looked at call by call.

use reference::bench::{Event, Instrument, Run};

/// Run a random run, and look at each call: the instrument before, the event, the instrument after.
pub fn each_event(run: &Run, mut look: impl FnMut(&Instrument, &Event, &Instrument)) {
    let mut instrument = run.start.clone();
    for command in &run.commands {
        let before = instrument.clone();
        if let Some(event) = instrument.run(command) {
            look(&before, &event, &instrument);
        }
    }
}
