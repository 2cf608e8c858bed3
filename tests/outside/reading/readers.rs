//! The readers of one line: 17 for a line of another kind or a layout that is not allowed, then the line's own checks with 0 for its number.

use super::fields::Date;
use super::layouts::{Entry, Family, Layout, layout_line};
use super::lines::{Fix, Head, Point, date_line, event_line, extra_line, fix_line, head_line, point_line, satellites_line};
use super::refusals::{Answer, BAD_VALUE, Read, Refusal};

/// A reader of lines of a kind, by the rule of that kind.
pub(super) fn reader<T>(line: &[u8], kind: u8, allowed: bool, rule: impl Fn(&[u8]) -> Read<T>) -> Answer<T> {
    if !allowed || line.first() != Some(&kind) {
        return Err(Refusal::of(BAD_VALUE));
    }
    rule(line).map_err(|fault| fault.at(0))
}

/// "The fix (for K and N lines the time), and for each entry, in layout order, up to 13, its code, first and last byte."
#[derive(Clone, PartialEq, Eq, Debug)]
pub struct WithColumns<T> {
    pub said: T,
    pub columns: Vec<Entry>,
}

/// What a line says, with the columns of the layout that it was read by.
fn with_columns<T>(said: T, layout: &Layout) -> WithColumns<T> {
    WithColumns { said, columns: layout.entries.clone() }
}

/// A B line by an I layout: its fix and its columns.
pub fn read_fix(line: &[u8], layout: &Layout) -> Answer<WithColumns<Fix>> {
    let fix = reader(line, b'B', layout.is_allowed(Family::Fixes), |l| fix_line(l, layout))?;
    Ok(with_columns(fix, layout))
}

/// A K line by a J layout, or an N line by an M layout: its time and its columns.
pub fn read_extra(line: &[u8], layout: &Layout) -> Answer<WithColumns<u32>> {
    let family = Family::of_line(line).unwrap_or(Family::Extras);
    let allowed = family != Family::Fixes && layout.is_allowed(family);
    let time = reader(line, family.kind(), allowed, |l| extra_line(l, family, layout))?;
    Ok(with_columns(time, layout))
}

pub fn read_date(line: &[u8]) -> Answer<Date> {
    reader(line, b'H', true, date_line)
}

pub fn read_event(line: &[u8]) -> Answer<u32> {
    reader(line, b'E', true, event_line)
}

pub fn read_satellites(line: &[u8]) -> Answer<u32> {
    reader(line, b'F', true, satellites_line)
}

pub fn read_head(line: &[u8]) -> Answer<Head> {
    reader(line, b'C', true, head_line)
}

pub fn read_point(line: &[u8]) -> Answer<Point> {
    reader(line, b'C', true, point_line)
}

pub fn read_layout(line: &[u8], family: Family) -> Answer<Layout> {
    reader(line, family.layout_kind(), true, |l| layout_line(l, family))
}
