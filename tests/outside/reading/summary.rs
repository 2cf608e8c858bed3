//! The summary beside a flight: twelve numbers for the whole, then twelve for each run of 256 fixes.

use super::fields::Position;
use super::refusals::{Answer, BAD_VALUE, NO_ROOM, Refusal};
use super::track::{Record, track};

/// "12 for the whole flight and then 12 for each run of 256 B lines, the last run perhaps shorter".
pub const NUMBERS: usize = 12;
pub const RUN: usize = 256;

/// "Signed plain counts (south and west negative)".
fn signed(p: &Position) -> i32 {
    let count = p.count.plain() as i32;
    if b"SW".contains(&p.letter) { -count } else { count }
}

/// The least and the greatest of some numbers; "a number with nothing to tell is 0".
fn ends(numbers: impl Iterator<Item = i32> + Clone) -> (i32, i32) {
    (numbers.clone().min().unwrap_or(0), numbers.max().unwrap_or(0))
}

/// The twelve numbers of some fixes: "number of fixes; day and plain seconds of the first, then of the last; highest and lowest pressure altitude; 1 or 0 for "has a position"; least and
/// greatest latitude, least and greatest longitude". "Only fixes marked A count for position, all for altitude".
pub fn numbers(fixes: &[Record]) -> [i32; NUMBERS] {
    let moment = |fix: Option<&Record>| fix.map_or((0, 0), |r| (r.day as i32, r.fix.time.plain() as i32));
    let (first, last) = (moment(fixes.first()), moment(fixes.last()));
    let (lowest, highest) = ends(fixes.iter().map(|r| r.fix.pressure));
    let placed = fixes.iter().filter(|r| r.fix.validity == b'A');
    let (south, north) = ends(placed.clone().map(|r| signed(&r.fix.latitude)));
    let (west, east) = ends(placed.clone().map(|r| signed(&r.fix.longitude)));
    let has_position = placed.count() > 0;
    let count = fixes.len() as i32;
    [count, first.0, first.1, last.0, last.1, highest, lowest, has_position.into(), south, north, west, east]
}

/// The summary made afresh: of the whole, and of each run.
pub fn summary(file: &[u8]) -> Answer<Vec<i32>> {
    let track = track(file)?;
    Ok([&track[..]].into_iter().chain(track.chunks(RUN)).flat_map(numbers).collect())
}

/// The summary in a lent list, by an update that is told an old number of fixes; how many runs there are. "An update told an old number of fixes works out from the file only the whole, the
/// run that was last if not full, and new runs; earlier runs keep their lent numbers." "Numbers past the last run stay. Refusals: the file's own, 17 if the old number exceeds the new,
/// then 18 if the list is short; the list is then unchanged."
pub fn summary_into(file: &[u8], old: usize, list: &mut [i32]) -> Answer<usize> {
    let track = track(file)?;
    if old > track.len() {
        return Err(Refusal::of(BAD_VALUE));
    }
    let runs: Vec<&[Record]> = track.chunks(RUN).collect();
    if list.len() < NUMBERS * (1 + runs.len()) {
        return Err(Refusal::of(NO_ROOM));
    }
    let mut parts = list.chunks_mut(NUMBERS);
    parts.next().unwrap().copy_from_slice(&numbers(&track));
    for (n, (part, run)) in parts.zip(&runs).enumerate() {
        let was_full = (n + 1) * RUN <= old;
        if !was_full {
            part.copy_from_slice(&numbers(run));
        }
    }
    Ok(runs.len())
}
