//! A line of input: a letter and its numbers, one space between, digits only, nothing else.

pub fn read_line(line: &[u8]) -> Option<(u8, Vec<u64>)> {
    let mut parts = line.split(|byte| *byte == b' ');
    let letter = match parts.next() {
        Some([letter]) => *letter,
        _ => return None,
    };
    let numbers = parts.map(read_number).collect::<Option<Vec<u64>>>()?;
    Some((letter, numbers))
}

fn read_number(digits: &[u8]) -> Option<u64> {
    if digits.is_empty() || !digits.iter().all(u8::is_ascii_digit) {
        return None;
    }
    std::str::from_utf8(digits).ok()?.parse().ok()
}

/// The lines of a whole input. The last needs no line end.
pub fn lines_of(input: &[u8]) -> impl Iterator<Item = &[u8]> {
    let whole = input.strip_suffix(b"\n").unwrap_or(input);
    whole.split(|byte| *byte == b'\n').filter(move |_| !input.is_empty())
}
