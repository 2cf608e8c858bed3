//! The declaration of a file: its head, its points, and where their texts stand.

use super::file::check_usual_alone;
use super::lines::{Head, Point};
use super::places::{Part, lines_of};
use super::readers::{read_head, read_point};
use super::refusals::{Answer, NO_ROOM, Refusal};

/// How many numbers a point is told in.
pub const POINT_NUMBERS: usize = 6;

/// A head, the number of its line, counted from 1, where its text stands in the file; and its points, each with its text.
#[derive(Clone, PartialEq, Eq, Debug)]
pub struct Declared {
    pub head: Head,
    pub line: u64,
    pub text: Part,
    pub points: Vec<(Point, Part)>,
}

impl Declared {
    /// Six numbers for each point: latitude and its letter, longitude and its letter, where the text starts and how many bytes it has.
    pub fn numbers(&self) -> Vec<u64> {
        let each = |(point, text): &(Point, Part)| {
            let [(a, al), (o, ol)] = [point.latitude, point.longitude].map(|p| (p.count.count, p.letter.into()));
            [a, al, o, ol, text.start as u64, text.length as u64]
        };
        self.points.iter().flat_map(each).collect()
    }
}

/// The declaration of a file, or none. In an accepted file the first C line is the head, and its points come "at once", four more than it has turn points. The text
/// of a head is what its 25 fixed bytes leave of the line, that of a point what 18 leave.
pub fn declared(file: &[u8]) -> Answer<Option<Declared>> {
    check_usual_alone(file)?;
    let lines: Vec<(usize, &[u8])> = lines_of(file).collect();
    let Some(first) = lines.iter().position(|(_, line)| line[0] == b'C') else { return Ok(None) };
    let behind = |fixed: usize, at: usize, line: &[u8]| Part { start: at + fixed, length: line.len() - fixed };
    let (at, line) = lines[first];
    let head = read_head(line).unwrap();
    let points = lines[first + 1..].iter().take(head.turns as usize + 4);
    let points = points.map(|&(at, line)| (read_point(line).unwrap(), behind(18, at, line))).collect();
    Ok(Some(Declared { head, line: first as u64 + 1, text: behind(25, at, line), points }))
}

/// Its points put at the start of a list of numbers. 18 comes last, where the list has fewer "than six for each point". Numbers past the last point's stay, and all
/// of a refused call.
pub fn declared_into(file: &[u8], list: &mut [u64]) -> Answer<Option<Declared>> {
    let declared = declared(file)?;
    let numbers = declared.as_ref().map_or(vec![], Declared::numbers);
    let part = list.get_mut(..numbers.len()).ok_or(Refusal::of(NO_ROOM))?;
    part.copy_from_slice(&numbers);
    Ok(declared)
}
