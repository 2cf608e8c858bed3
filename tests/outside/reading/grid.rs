//! Columns of a whole file: the numbers of some columns, a row for each line of a family. What C calls hive_columns.

use super::file::check_usual_alone;
use super::layouts::Family;
use super::look::{MOST_ENTRIES, look_number};
use super::places::lines_of;
use super::refusals::{ABSENT, Answer, BAD_VALUE, NO_ROOM, NOT_NUMBER, Refusal};

/// What stands for a column that is no whole number. None is this one: 18 digits are far from it.
pub const NO_NUMBER: i64 = i64::MIN;

/// The codes that a text has, "three bytes for each code". 17 for none, for more than a layout has room for, for a part of one, and for one that comes twice.
fn codes(text: &[u8]) -> Answer<Vec<[u8; 3]>> {
    let (codes, rest) = text.as_chunks::<3>();
    let again = codes.iter().enumerate().any(|(n, code)| codes[..n].contains(code));
    if codes.is_empty() || codes.len() > MOST_ENTRIES || !rest.is_empty() || again {
        return Err(Refusal::of(BAD_VALUE));
    }
    Ok(codes.to_vec())
}

/// How many lines of the family an accepted file has, and the numbers: line by line, those of the codes, in the order in which they are asked for.
pub fn grid(file: &[u8], letter: u8, text: &[u8]) -> Answer<(usize, Vec<i64>)> {
    let said = check_usual_alone(file)?;
    let family = Family::of_line(&[letter]).ok_or(Refusal::of(BAD_VALUE))?;
    let codes = codes(text)?;
    let layout = said.layouts.of(family);
    if codes.iter().any(|code| layout.look_up(code).is_none()) {
        return Err(Refusal::of(ABSENT));
    }
    let rows: Vec<&[u8]> = lines_of(file).map(|(_, line)| line).filter(|line| line[0] == letter).collect();
    // Of an accepted file a look has no other refusal.
    let cell = |line: &[u8], code: &[u8; 3]| match look_number(line, &layout.entries, code) {
        Err(refused) if refused.number == NOT_NUMBER => NO_NUMBER,
        found => found.unwrap(),
    };
    let numbers = rows.iter().flat_map(|line| codes.iter().map(|code| cell(line, code))).collect();
    Ok((rows.len(), numbers))
}

/// The numbers put at the start of a list; how many lines there are. 18 comes last, where the list has fewer numbers. A refused call changes none, and those past
/// the last row stay.
pub fn grid_into(file: &[u8], letter: u8, codes: &[u8], list: &mut [i64]) -> Answer<usize> {
    let (lines, numbers) = grid(file, letter, codes)?;
    let part = list.get_mut(..numbers.len()).ok_or(Refusal::of(NO_ROOM))?;
    part.copy_from_slice(&numbers);
    Ok(lines)
}
