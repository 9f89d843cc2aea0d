//! The program: reads a stored image and prints what it finds. It is not proved, and changes nothing that it reads.

use decode::layout::Entry;
use inspect::{diff, log, read_columns, salvage, slides, summary, svg, tree, why_image, Image, Which};
use std::io::{self, Write};
use std::process::ExitCode;

const USAGE: &str = "\
usage: inspect summary IMAGE                 what the image holds, and what a restart answers
       inspect why IMAGE                     which rule is broken, and where
       inspect log IMAGE [batch N | page N]  the stored records, by name
       inspect tree IMAGE [svg]              the pages after redo, from the root down; as a picture
       inspect slides IMAGE                  the slides that a restart leaves
       inspect diff IMAGE IMAGE              the pages and slots that differ
       inspect salvage IMAGE OUT [COLUMNS]   a new image with what can be brought back
IMAGE is a file of the example host, or NAME for the raw areas NAME.pages and NAME.log. OUT is written in IMAGE's form.
COLUMNS is the text that was imported, a slide a line: its key and its value.
This program is not proved. It reads; only salvage writes, and only new files.";

/// What to print, and whether all is well.
type Said = Result<(Vec<String>, bool), String>;

fn main() -> ExitCode {
    let arguments: Vec<String> = std::env::args().skip(1).collect();
    let words: Vec<&str> = arguments.iter().map(String::as_str).collect();
    match obey(&words) {
        Ok((lines, well)) => {
            // Whoever reads may stop reading.
            let _ = lines.iter().try_for_each(|line| writeln!(io::stdout(), "{line}"));
            ExitCode::from(u8::from(!well))
        }
        Err(message) => {
            eprintln!("{message}");
            ExitCode::from(2)
        }
    }
}

fn obey(words: &[&str]) -> Said {
    let areas = |name: &str| Image::read(name).map(|image| image.areas);
    match *words {
        ["summary", image] => Ok((summary(&Image::read(image)?), true)),
        ["why", image] => said_why(&Image::read(image)?),
        ["log", image] => Ok((log(&Image::read(image)?, Which::All), true)),
        ["log", image, "batch", number] => Ok((log(&Image::read(image)?, Which::Batch(number_in(number)?)), true)),
        ["log", image, "page", number] => {
            Ok((log(&Image::read(image)?, Which::Page(number_in(number)? as usize)), true))
        }
        ["tree", image] => Ok((tree(&areas(image)?)?, true)),
        ["tree", image, "svg"] => Ok((svg(&areas(image)?)?, true)),
        ["slides", image] => Ok((slides(&areas(image)?)?, true)),
        ["diff", one, other] => said_diff(&Image::read(one)?, &Image::read(other)?),
        ["salvage", image, out] => write_salvaged(&Image::read(image)?, out, None),
        ["salvage", image, out, columns] => write_salvaged(&Image::read(image)?, out, Some(&read_columns(columns)?)),
        _ => Err(USAGE.to_string()),
    }
}

fn number_in(word: &str) -> Result<u32, String> {
    word.parse().map_err(|_| format!("{word}: no number"))
}

fn said_why(image: &Image) -> Said {
    let (number, line) = why_image(image);
    Ok((vec![line], number == 0 && image.lost.is_empty() && !image.lacks_stores))
}

fn said_diff(one: &Image, other: &Image) -> Said {
    let lines = diff(&one.areas, &other.areas);
    let same = lines.is_empty();
    Ok((lines, same))
}

fn write_salvaged(image: &Image, out: &str, columns: Option<&[Entry]>) -> Said {
    let salvaged = salvage(image, columns)?;
    if let Some(saved) = salvaged.image {
        saved.write(out).map_err(|error| format!("{out}: {error}"))?;
    }
    Ok((salvaged.lines, salvaged.is_well))
}
