//! Compares the register's library, called through C, with the reference model: every answer, every byte of the four areas
//! and the desk, after each call.

mod beside;
mod damage;
mod difference;
mod edges;
mod gate;
mod images;
mod lent;
mod library;
mod loan;
mod machine;
mod rules;
mod tally;
mod traces;

use reference::bench::Shape;
use std::process::ExitCode;
use traces::compare_run;

const USAGE: &str =
    "usage: compare gate | try WORDS | run plain|damaged|crowded|largest|edge|field SEED CALLS | long SEED CALLS | loads";

fn main() -> ExitCode {
    let arguments: Vec<String> = std::env::args().skip(1).collect();
    let words: Vec<&str> = arguments.iter().map(String::as_str).collect();
    let same = match words.as_slice() {
        ["gate"] => Some(gate::gate("")),
        ["try", words] => Some(gate::gate(words)),
        ["run", shape, seed, calls] => one_run(shape, seed, calls),
        ["long", seed, calls] => long(seed, calls),
        ["loads"] => Some(loads()),
        _ => None,
    };
    match same {
        Some(true) => ExitCode::SUCCESS,
        Some(false) => ExitCode::FAILURE,
        None => {
            eprintln!("{USAGE}");
            ExitCode::from(2)
        }
    }
}

fn one_run(shape: &str, seed: &str, calls: &str) -> Option<bool> {
    let shape = Shape::ALL.into_iter().find(|known| known.name() == shape)?;
    Some(run(shape, seed.parse().ok()?, calls.parse().ok()?).is_some())
}

/// Runs of all shapes from this seed on, until so many calls are compared.
fn long(seed: &str, calls: &str) -> Option<bool> {
    let (first, wanted): (u64, usize) = (seed.parse().ok()?, calls.parse().ok()?);
    let mut compared = 0;
    for seed in first.. {
        for shape in Shape::ALL {
            let calls = if shape == Shape::Largest { 100 } else { 2000 };
            let Some(more) = run(shape, seed, calls) else {
                return Some(false);
            };
            compared += more;
            if compared >= wanted {
                println!("{compared} calls compared, no difference");
                return Some(true);
            }
        }
    }
    unreachable!("the seeds do not end")
}

/// Loads of every size.
fn loads() -> bool {
    let tried = edges::all_loads();
    match &tried {
        Ok(tally) => println!("{} loads compared, no difference", tally.calls()),
        Err(difference) => println!("DIFFERENCE: {difference}"),
    }
    tried.is_ok()
}

/// Compare one run and say so; answers how many calls were the same.
fn run(shape: Shape, seed: u64, calls: usize) -> Option<usize> {
    match compare_run(shape, seed, calls) {
        Ok(seen) => {
            println!("ok: run {} {seed} {calls}: {seen}", shape.name());
            Some(seen.tally.calls())
        }
        Err(difference) => {
            println!("DIFFERENCE: {difference}");
            None
        }
    }
}
