//! A refusal told to a person: its number, name and meaning, its line and byte where they are not 0; then the line's text with a caret under the byte.

use super::refusals::{REFUSALS, Refusal};

/// How much of a faulty line is shown.
const SHOWN: usize = 80;

/// The name of a refusal's number; none where no refusal has it.
pub fn name(number: u32) -> Option<&'static str> {
    REFUSALS.iter().find(|row| row.0 == number).map(|row| row.1)
}

/// The whole explanation; none where no refusal has the number.
pub fn explained(file: &[u8], r: &Refusal) -> Option<String> {
    let &(number, name, given_when) = REFUSALS.iter().find(|row| row.0 == r.number)?;
    let (line, byte) = (r.line as usize, r.byte as usize);
    let place = |word: &str, n: usize| if n > 0 { format!(", {word} {n}") } else { String::new() };
    // The first bytes are shown, or where the byte is past these 40 before it and 39 after it.
    let first = if byte <= SHOWN { 1 } else { byte - 40 };
    let from = if first > 1 { format!(" (text from byte {first})") } else { String::new() };
    let mut out = format!("REFUSED {number} {name}{}{}: {given_when}{from}\n", place("line", line), place("byte", byte));
    if line > 0 {
        let shown: String = text_of(file, line).iter().skip(first - 1).take(SHOWN).map(|&c| plain(c)).collect();
        if !shown.is_empty() || byte > 0 {
            out += &format!("{shown}\n");
        }
        if byte > 0 {
            out += &format!("{}^\n", " ".repeat(byte - first));
        }
    }
    Some(out)
}

/// The text of a line up to its first CR or LF; none where a line before it does not end with CR LF, and none past the last.
fn text_of(file: &[u8], number: usize) -> &[u8] {
    let end_of = |text: &[u8]| text.iter().position(|c| b"\r\n".contains(c)).unwrap_or(text.len());
    let mut rest = file;
    for _ in 1..number {
        let Some(behind) = rest[end_of(rest)..].strip_prefix(b"\r\n") else { return b"" };
        rest = behind;
    }
    &rest[..end_of(rest)]
}

/// "A byte outside hex 20 to 7E" is shown as `?`.
fn plain(c: u8) -> char {
    if (0x20..=0x7E).contains(&c) { c.into() } else { '?' }
}
