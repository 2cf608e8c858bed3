//! Files to try the reading and the library on, each made from a seed and its number in a run; and what is known of a file's answer from how it was made.

mod branches;
mod characters;
mod counted;
pub mod damage;
pub mod examples;
pub mod filled;
pub mod finer;
pub mod flights;
pub mod generate;
pub mod grids;
pub mod headers;
pub mod ledger;
pub mod limits;
pub mod looks;
pub mod pairs;
pub mod random;
pub mod reached;
pub mod reached_declared;
pub mod reached_finer;
pub mod reached_grid;
pub mod reached_headers;
pub mod reached_kinds;
pub mod reached_looks;
pub mod reached_pairs;
pub mod reached_shelves;
pub mod reached_signed;
pub mod reached_summary;
pub mod reached_track;
mod rules;
pub mod shelf_calls;
pub mod shelf_runs;
pub mod shelves;
pub mod spoiled_shelves;
pub mod values;
pub mod wide;

use crate::reading::layouts::FAMILIES;
use crate::reading::refusals::{ENDS_EARLY, TABLE_FULL};
use crate::reading::{Accepted, Answer, Refusal, Role};
use finer::Case;
use generate::Sample;
use limits::Limit;
use random::Random;

/// What the maker of a file knows of a check's answer.
#[derive(Clone, Copy)]
pub enum Known {
    Nothing,
    Counts { lines: u64, b_lines: u64, k_lines: u64, n_lines: u64, signed: bool },
    Refused(Refusal),
}

impl Known {
    pub fn of(sample: &Sample) -> Known {
        let [b_lines, k_lines, n_lines] = FAMILIES.map(|family| sample.count(family.role()));
        Known::Counts { lines: sample.lines.len() as u64, b_lines, k_lines, n_lines, signed: sample.count(Role::Seal) > 0 }
    }

    /// What is known of the strict check's answer, where this is known of the usual one's: a file without G ends early.
    pub fn strictly(self) -> Known {
        match self {
            Known::Counts { lines, signed: false, .. } => Known::Refused(Refusal { number: ENDS_EARLY, line: lines + 1, byte: 0 }),
            other => other,
        }
    }

    /// What is known where the table has this many entries.
    pub fn with_table(self, entries: usize) -> Known {
        let entries = entries as u64;
        let full = Known::Refused(Refusal { number: TABLE_FULL, line: entries + 1, byte: 0 });
        match self {
            Known::Counts { lines, .. } if entries < lines => full,
            Known::Refused(r) if r.line > 0 && entries < r.line - 1 => full,
            other => other,
        }
    }

    pub fn agrees(&self, answer: &Answer<Accepted>) -> Result<(), String> {
        let (agrees, known) = match (self, answer) {
            (Known::Nothing, _) => return Ok(()),
            (Known::Counts { lines, b_lines, k_lines, n_lines, signed }, _) => {
                let counts = answer.as_ref().map(|a| (a.lines, a.b_lines, a.k_lines, a.n_lines, a.signed));
                let how = if *signed { "signed" } else { "not signed" };
                (counts == Ok((*lines, *b_lines, *k_lines, *n_lines, *signed)), format!("a valid file of {lines} lines, {how}"))
            }
            (Known::Refused(r), _) => (answer.as_ref().err() == Some(r), format!("refused with {r:?}")),
        };
        if agrees { Ok(()) } else { Err(format!("the reading itself: {answer:?}, yet the file was made as {known}")) }
    }
}

/// A file of a run, the entries of the table lent with it, and what is known of the usual check's answer with that table.
pub struct Made {
    pub file: Vec<u8>,
    pub entries: usize,
    pub known: Known,
}

/// The files of a run: valid ones, ones damaged anywhere or at an aim, and each limit in turn, with each case of a refined B line among them.
pub struct Run {
    seed: u64,
    limits: Vec<Limit>,
    finer: Vec<Case>,
    most_lines: usize,
}

impl Run {
    /// Files of up to about so many body lines, now and then more.
    pub fn new(seed: u64, most_lines: usize) -> Run {
        Run { seed, limits: limits::all(), finer: finer::all(), most_lines }
    }

    /// The source of numbers for a file of the run, and for whatever is then asked of it.
    pub fn random(&self, number: u64) -> Random {
        Random::new(self.seed.wrapping_mul(1_000_003).wrapping_add(number))
    }

    pub fn make(&self, random: &mut Random, number: u64) -> Made {
        let (turn, class) = (number / 4, number % 4);
        let (file, known) = match class {
            0 => self.valid(random),
            1 => self.spoiled(random),
            2 => self.aimed(random, turn),
            _ => self.at_limit(random, turn),
        };
        // A file at a limit has a table with an entry for every line, so that the limit is reached.
        let entries = if class == 3 { enough(random, &file) } else { entries(random, &file) };
        Made { known: known.with_table(entries), file, entries }
    }

    fn sample(&self, random: &mut Random) -> Sample {
        let body = match random.below(100) {
            0 => random.within(0, self.most_lines * 20),
            1..10 => random.within(0, self.most_lines * 5),
            _ => random.within(0, self.most_lines),
        };
        generate::sample(random, body)
    }

    fn valid(&self, random: &mut Random) -> (Vec<u8>, Known) {
        let sample = self.sample(random);
        (sample.bytes(), Known::of(&sample))
    }

    fn spoiled(&self, random: &mut Random) -> (Vec<u8>, Known) {
        let sample = self.sample(random);
        (damage::anywhere(random, &sample), Known::Nothing)
    }

    /// A file damaged at one aim after the other; another file is taken where one has nothing to aim at.
    fn aimed(&self, random: &mut Random, turn: u64) -> (Vec<u8>, Known) {
        let aims = [3, 4, 5, 6, 6, 6, 6, 7, 7, 8, 9, 9, 22, 22, 23, 23, 24, 25, 25, 10, 10, 11, 11, 12, 12, 13, 13, 14, 14, 16];
        let aim = aims[(turn % aims.len() as u64) as usize];
        loop {
            let sample = self.sample(random);
            if let Some((file, refusal)) = damage::aimed(random, &sample, aim) {
                return (file, Known::Refused(refusal));
            }
        }
    }

    /// A file at one limit after the other, in an order that the seed shifts; neighbours in the list come far apart.
    fn at_limit(&self, random: &mut Random, turn: u64) -> (Vec<u8>, Known) {
        let count = self.limits.len() + self.finer.len();
        let at = (turn.wrapping_mul(7_919).wrapping_add(self.seed) % count as u64) as usize;
        match self.limits.get(at) {
            Some(limit) => (limits::file(random, limit), Known::Nothing),
            None => finer::file(random, &self.finer[at - self.limits.len()]),
        }
    }
}

/// How many entries the lent table has: mostly enough, now and then too few.
fn entries(random: &mut Random, file: &[u8]) -> usize {
    if random.once_in(8) { random.below(ends(file) + 1) } else { enough(random, file) }
}

/// An entry for every line, and mostly a few more.
fn enough(random: &mut Random, file: &[u8]) -> usize {
    ends(file) + if random.once_in(8) { 0 } else { random.below(6) }
}

fn ends(file: &[u8]) -> usize {
    file.iter().filter(|&&c| c == b'\n').count()
}
