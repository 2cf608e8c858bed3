//! The writers: each value has one line that could read as it. Where that line does not, 17; where the output has no room for it, 18, and no byte is changed.

use super::fields::{EAST_WEST, NORTH_SOUTH, altitude_text, date_or_none_text, date_text, time_text};
use super::layouts::{Family, Layout, layout_line};
use super::lines::{Fix, Head, Point, extra_line, fix_line, head_line, point_line};
use super::refusals::{Answer, BAD_VALUE, NO_ROOM, Read, Refusal};

/// A line put into the output with its CR LF; the place after it. "Output shorter than place + length + 2" is 18.
fn put(line: &[u8], place: usize, out: &mut [u8]) -> Answer<usize> {
    let Some(part) = out.get_mut(place..).and_then(|rest| rest.get_mut(..line.len() + 2)) else {
        return Err(Refusal::of(NO_ROOM));
    };
    part[..line.len()].copy_from_slice(line);
    part[line.len()..].copy_from_slice(b"\r\n");
    Ok(place + line.len() + 2)
}

/// A line's fixed part, which has so many bytes where no value is too large for its place, with the rest behind it.
fn joined(mut fixed: Vec<u8>, width: usize, rest: &[u8]) -> Answer<Vec<u8>> {
    if fixed.len() != width {
        return Err(Refusal::of(BAD_VALUE));
    }
    fixed.extend(rest);
    Ok(fixed)
}

/// "17 exactly when no line that passes 7 to 13 reads as the values given."
fn write<T: PartialEq>(line: &[u8], value: &T, read: impl Fn(&[u8]) -> Read<T>, place: usize, out: &mut [u8]) -> Answer<usize> {
    if read(line).as_ref() != Ok(value) {
        return Err(Refusal::of(BAD_VALUE));
    }
    put(line, place, out)
}

fn allowed(layout: &Layout, family: Family) -> Answer<()> {
    layout.is_allowed(family).then_some(()).ok_or(Refusal::of(BAD_VALUE))
}

/// A B line. "The B writer splits the count again and refuses one whose decimals don't match the layout's width or whose digits aren't the column's": the 35 bytes have the plain
/// counts, the columns are as given, and the line must read as the fix.
pub fn write_fix(fix: &Fix, columns: &[u8], layout: &Layout, place: usize, out: &mut [u8]) -> Answer<usize> {
    allowed(layout, Family::Fixes)?;
    let seconds = u32::try_from(fix.time.plain()).map_err(|_| Refusal::of(BAD_VALUE))?;
    let mut line = vec![b'B'];
    line.extend(time_text(seconds).bytes());
    line.extend(NORTH_SOUTH.text(&fix.latitude));
    line.extend(EAST_WEST.text(&fix.longitude));
    line.push(fix.validity);
    line.extend(altitude_text(fix.pressure).bytes());
    line.extend(altitude_text(fix.gnss).bytes());
    write(&joined(line, 35, columns)?, fix, |l| fix_line(l, layout), place, out)
}

/// A K or an N line, by its letter; 17 for another letter.
pub fn write_extra(kind: u8, time: u32, columns: &[u8], layout: &Layout, place: usize, out: &mut [u8]) -> Answer<usize> {
    let family = [Family::Extras, Family::Unsigned].into_iter().find(|family| family.kind() == kind).ok_or(Refusal::of(BAD_VALUE))?;
    allowed(layout, family)?;
    let line = [vec![kind], time_text(time).into_bytes()].concat();
    write(&joined(line, 7, columns)?, &time, |l| extra_line(l, family, layout), place, out)
}

pub fn write_layout(layout: &Layout, family: Family, place: usize, out: &mut [u8]) -> Answer<usize> {
    write(&layout.text(family), layout, |l| layout_line(l, family), place, out)
}

pub fn write_head(head: &Head, text: &[u8], place: usize, out: &mut [u8]) -> Answer<usize> {
    let (declared, time, flight) = (date_text(&head.declared), time_text(head.time), date_or_none_text(&head.flight));
    let line = format!("C{declared}{time}{flight}{:04}{:02}", head.task, head.turns).into_bytes();
    write(&joined(line, 25, text)?, head, head_line, place, out)
}

pub fn write_point(point: &Point, text: &[u8], place: usize, out: &mut [u8]) -> Answer<usize> {
    let line = [vec![b'C'], NORTH_SOUTH.text(&point.latitude), EAST_WEST.text(&point.longitude)].concat();
    write(&joined(line, 18, text)?, point, point_line, place, out)
}
