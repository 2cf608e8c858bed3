//! A file's summary held: every number of the list is the reading's, and those that an update keeps, those past the last run, and all of a refused call, are as lent.

use crate::hold::{Held, Tally, told};
use crate::library::{self, ANSWER};
use outside::files::flights::{Flight, Grown, lent};
use outside::files::random::Random;
use outside::files::reached_summary::Reached;
use outside::reading::summary::{NUMBERS, RUN, summary, summary_into};
use outside::reading::{Answer, Record, track};

/// An update told this old number, with this list.
fn hold(tally: &mut Tally, reached: &mut Reached, file: &[u8], track: &Answer<Vec<Record>>, old: u32, list: &[i32]) -> Held<Vec<i32>> {
    let (mut ours, mut theirs) = (list.to_vec(), list.to_vec());
    let raw = library::summary(file, old, &mut ours);
    let answer = summary_into(file, old as usize, &mut theirs);
    reached.add(track, old, list.len(), &answer);
    tally.same(
        "hive_summary",
        &format!("an old number of {old}, a list of {}", list.len()),
        raw.number,
        raw,
        told(&answer, |&runs| [runs as u64]),
    )?;
    let other = (0..list.len()).find(|&n| ours[n] != theirs[n]);
    tally.same("hive_summary", &"its list", raw.number, other.map(|n| (n, ours[n])), other.map(|n| (n, theirs[n])))?;
    Ok(theirs)
}

/// Any file: afresh, with any old number, and with a list that may be too short.
pub fn file(tally: &mut Tally, reached: &mut Reached, random: &mut Random, file: &[u8]) -> Held<()> {
    let track = track(file);
    let fixes = track.as_ref().map_or(0, Vec::len);
    let needed = NUMBERS * (1 + fixes.div_ceil(RUN));
    for (old, length) in [(0, needed), (random.below(fixes + 2), random.below(needed + 4)), (u32::MAX as usize, 0)] {
        let list: Vec<i32> = (0..length).map(lent).collect();
        hold(tally, reached, file, &track, old as u32, &list)?;
    }
    Ok(())
}

/// A flight with its own old number and list.
pub fn flight(tally: &mut Tally, reached: &mut Reached, flight: &Flight) -> Held<()> {
    hold(tally, reached, &flight.file, &track(&flight.file), flight.old, &flight.list)?;
    wrong_answers(tally, flight)
}

/// A file that B lines were put into, with the earlier runs of the older one: the list is one made afresh.
pub fn grown(tally: &mut Tally, reached: &mut Reached, grown: &Grown) -> Held<()> {
    let (older, newer) = (summary(&grown.older).unwrap(), summary(&grown.newer).unwrap());
    let fixes = older[0] as usize;
    reached.add_grown(grown, fixes);
    let mut list: Vec<i32> = (0..newer.len() + 5).map(lent).collect();
    let kept = NUMBERS * (1 + fixes / RUN);
    list[NUMBERS..kept].copy_from_slice(&older[NUMBERS..kept]);
    let after = hold(tally, reached, &grown.newer, &track(&grown.newer), fixes as u32, &list)?;
    if after[..newer.len()] != newer[..] {
        return Err(format!("the reading itself: an update from {fixes} fixes is not one made afresh"));
    }
    Ok(())
}

/// A summary that lends an answer of the wrong length changes nothing.
fn wrong_answers(tally: &mut Tally, flight: &Flight) -> Held<()> {
    for length in [0, 1, ANSWER - 1, ANSWER + 1] {
        let (mut list, mut answer) = (flight.list.clone(), vec![library::BEFORE; length]);
        let number = library::summary_answering(&flight.file, 0, &mut list, &mut answer);
        let unchanged = (17, flight.list.clone(), vec![library::BEFORE; length]);
        tally.same("hive_summary", &format!("an answer of {length}"), number, (number, list, answer), unchanged)?;
    }
    Ok(())
}
