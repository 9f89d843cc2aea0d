//! The model as a program: reads standard input, writes standard output.

use reference::bench::{areas_after, explain, run, run_vectors, Console, Shape};
use reference::layout::Areas;
use std::io::{self, BufRead, Read, Write};
use std::process::ExitCode;

const USAGE: &str =
    "usage: reference vectors | console | explain | image OUT | trace SEED CALLS | damage SEED CALLS | crowded SEED CALLS";

fn main() -> ExitCode {
    let arguments: Vec<String> = std::env::args().skip(1).collect();
    let words: Vec<&str> = arguments.iter().map(String::as_str).collect();
    let done = match words.as_slice() {
        ["vectors"] => whole_input(run_vectors),
        ["explain"] => whole_input(explain),
        ["image", out] => write_image(out),
        ["console"] => console().map_err(|error| error.to_string()),
        ["trace", seed, calls] => print_trace(Shape::Plain, seed, calls),
        ["damage", seed, calls] => print_trace(Shape::Damaged, seed, calls),
        ["crowded", seed, calls] => print_trace(Shape::Crowded, seed, calls),
        _ => Err(USAGE.to_string()),
    };
    match done {
        Ok(()) => ExitCode::SUCCESS,
        Err(message) => {
            eprintln!("{message}");
            ExitCode::FAILURE
        }
    }
}

fn whole_input(run: fn(&[u8]) -> Result<String, usize>) -> Result<(), String> {
    let mut input = Vec::new();
    io::stdin().read_to_end(&mut input).map_err(|error| error.to_string())?;
    let output = run(&input).map_err(|line| format!("line {line} is no command"))?;
    io::stdout().write_all(output.as_bytes()).map_err(|error| error.to_string())
}

/// The stable areas after a run, as the raw areas OUT.pages and OUT.log.
fn write_image(out: &str) -> Result<(), String> {
    let mut input = Vec::new();
    io::stdin().read_to_end(&mut input).map_err(|error| error.to_string())?;
    let Areas { stable_pages, stable_log, .. } =
        areas_after(&input).map_err(|line| format!("line {line} is no command"))?;
    let write = |path: String, bytes: &[u8]| std::fs::write(&path, bytes).map_err(|error| format!("{path}: {error}"));
    write(format!("{out}.pages"), &stable_pages)?;
    write(format!("{out}.log"), &stable_log)
}

/// Line by line, so that it can be talked to.
fn console() -> io::Result<()> {
    let mut console = Console::new();
    for line in io::stdin().lock().split(b'\n') {
        println!("{}", console.answer(&line?));
    }
    Ok(())
}

fn print_trace(shape: Shape, seed: &str, calls: &str) -> Result<(), String> {
    let (Ok(seed), Ok(calls)) = (seed.parse(), calls.parse()) else {
        return Err(USAGE.to_string());
    };
    let lines: String = run(shape, seed, calls).commands.iter().map(|command| format!("{command}\n")).collect();
    io::stdout().write_all(lines.as_bytes()).map_err(|error| error.to_string())
}
