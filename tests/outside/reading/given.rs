//! Layouts given as the text of their line, as C gives them.

use super::layouts::{Entry, Family, Layout};
use super::readers::read_layout;
use super::refusals::{Answer, BAD_VALUE, Refusal};
use super::writers::{write_extra, write_layout};

/// What a layout's text says: none for a text that is no such line by the rules; no text is the empty layout.
pub fn layout_given(text: &[u8], family: Family) -> Option<Layout> {
    if text.is_empty() { Some(Layout::default()) } else { read_layout(text, family).ok() }
}

/// Column n of an I, J or M line, counted from 1: 17 for 0 or more than the 13 that a line has room for, and for another kind; then what the line is refused for, then 17
/// where it has fewer.
pub fn column_given(text: &[u8], n: usize) -> Answer<Entry> {
    if n == 0 || n > 13 {
        return Err(Refusal::of(BAD_VALUE));
    }
    let family = Family::told_by(text).ok_or(Refusal::of(BAD_VALUE))?;
    read_layout(text, family)?.entries.get(n - 1).cloned().ok_or(Refusal::of(BAD_VALUE))
}

/// An I, a J or an M line from its text: 17 where it is no such line by the rules.
pub fn write_layout_given(text: &[u8], place: usize, out: &mut [u8]) -> Answer<usize> {
    let family = Family::told_by(text).ok_or(Refusal::of(BAD_VALUE))?;
    let layout = read_layout(text, family).map_err(|_| Refusal::of(BAD_VALUE))?;
    write_layout(&layout, family, place, out)
}

/// A K line by a J line's text, or an N line by an M line's: 17 for another letter, and for a text that is no such line by the rules.
pub fn write_extra_given(kind: u8, time: u32, columns: &[u8], text: &[u8], place: usize, out: &mut [u8]) -> Answer<usize> {
    let layout = Family::of_line(&[kind]).and_then(|family| layout_given(text, family)).ok_or(Refusal::of(BAD_VALUE))?;
    write_extra(kind, time, columns, &layout, place, out)
}
