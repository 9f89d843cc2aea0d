//! The columns that a register was imported from, as text: a slide a line, its key and its value, by rising keys. The
//! example host's import reads the same text (`docs/SERVICE.md`).

use decode::layout::Entry;

const BLANKS: [char; 2] = [' ', '\t'];

pub fn read_columns(name: &str) -> Result<Vec<Entry>, String> {
    let bytes = std::fs::read(name).map_err(|error| format!("{name}: {error}"))?;
    slides_in(&String::from_utf8_lossy(&bytes)).map_err(|(line, wrong)| format!("{name}:{line}: {wrong}"))
}

/// Else the line, and what is wrong with it. Lines without anything, and those that begin with #, are passed over.
fn slides_in(text: &str) -> Result<Vec<Entry>, (usize, String)> {
    let mut slides: Vec<Entry> = Vec::new();
    for (line, number) in text.split('\n').zip(1..) {
        let line = line.strip_suffix('\r').unwrap_or(line).trim_matches(BLANKS);
        if line.is_empty() || line.starts_with('#') {
            continue;
        }
        let slide = slide_in(line).map_err(|wrong| (number, wrong.to_string()))?;
        may_follow(slides.last(), &slide).map_err(|wrong| (number, wrong))?;
        slides.push(slide);
    }
    Ok(slides)
}

/// Between the two numbers stand blanks and tabs, or one comma or semicolon with or without them.
fn slide_in(line: &str) -> Result<Entry, &'static str> {
    let (key, rest) = line.split_at(line.find([' ', '\t', ',', ';']).unwrap_or(line.len()));
    let rest = rest.trim_start_matches(BLANKS);
    let value = rest.strip_prefix([',', ';']).unwrap_or(rest).trim_start_matches(BLANKS);
    let is_decimal = |word: &str| !word.is_empty() && word.bytes().all(|byte| byte.is_ascii_digit());
    if !is_decimal(key) || !is_decimal(value) {
        return Err("not two numbers");
    }
    match (key.parse(), value.parse()) {
        (Ok(key), Ok(value)) => Ok(Entry::new(key, value)),
        _ => Err("a number is above 4294967295"),
    }
}

/// What a loading asks of its keys.
fn may_follow(before: Option<&Entry>, slide: &Entry) -> Result<(), String> {
    match before {
        _ if slide.key == 0 => Err("key 0 stands for an unread label".to_string()),
        Some(before) if before.key >= slide.key => {
            Err(format!("the keys do not rise: {} after {}", slide.key, before.key))
        }
        _ => Ok(()),
    }
}

#[cfg(test)]
mod tests {
    use super::*;

    fn wrong(text: &str) -> (usize, String) {
        slides_in(text).expect_err(text)
    }

    #[test]
    fn a_slide_a_line_in_every_form() {
        let text =
            "# slide; picture\r\n\r\n500 7\n501\t8\r\n 502 , 9 \n\n503;10\n504,11\n  # more\n505 \t;\t12\n4294967295 0";
        let slides = slides_in(text).expect("slides");
        let keys: Vec<u32> = slides.iter().map(|slide| slide.key).collect();
        let values: Vec<u32> = slides.iter().map(|slide| slide.value).collect();
        assert_eq!(keys, [500, 501, 502, 503, 504, 505, u32::MAX]);
        assert_eq!(values, [7, 8, 9, 10, 11, 12, 0]);
        for empty in ["", "\n", "# nothing", "\r\n \t\r\n"] {
            assert_eq!(slides_in(empty), Ok(vec![]));
        }
    }

    #[test]
    fn what_is_no_slide_is_named_with_its_line() {
        for line in ["500", "500,", ",7", "500,,7", "500,;7", "500 7 8", "500 7,", "500.7", "+500 7", "500 -7", "a b"] {
            assert_eq!(wrong(&format!("# first\n1 1\n\n{line}\n")), (4, "not two numbers".to_string()), "{line}");
        }
        for line in ["4294967296 1", "1 4294967296", "1 99999999999999999999999"] {
            assert_eq!(wrong(line), (1, "a number is above 4294967295".to_string()), "{line}");
        }
        assert_eq!(wrong("0 7"), (1, "key 0 stands for an unread label".to_string()));
        assert_eq!(wrong("510 7\n#\n500 8\n"), (3, "the keys do not rise: 500 after 510".to_string()));
        assert_eq!(wrong("510 7\n510 8"), (2, "the keys do not rise: 510 after 510".to_string()));
    }
}
