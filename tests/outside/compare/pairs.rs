//! Two copies of a file held: the library brings them together as the reading does, either way round, and the output's other bytes stay.

use crate::hold::{Held, Tally};
use crate::library::{self, ANSWER, Told};
use outside::files::pairs::Pair;
use outside::files::reached_pairs::Reached;
use outside::reading::{Unmerged, Which, merge, merge_into};

/// The reading's answer as the library tells it.
fn told(answer: &Result<usize, Unmerged>) -> Told {
    let mut told = Told { number: 0, answer: [0; ANSWER] };
    match answer {
        Ok(length) => told.answer[library::MERGED_LENGTH] = *length as u64,
        Err(unmerged) => {
            told.number = unmerged.refusal.number;
            told.answer[0] = unmerged.refusal.line;
            told.answer[1] = unmerged.refusal.byte;
            told.answer[library::REFUSED_COPY] = match unmerged.of {
                None => 0,
                Some(Which::First) => 1,
                Some(Which::Second) => 2,
            };
        }
    }
    told
}

fn hold(tally: &mut Tally, first: &[u8], second: &[u8], room: usize) -> Held<()> {
    let out: Vec<u8> = (0..room).map(|n| 0x80 | n as u8).collect();
    let (mut ours, mut theirs) = (out.clone(), out);
    let raw = library::merge(first, second, &mut ours);
    let answer = merge_into(first, second, &mut theirs);
    tally.same("hive_merge", &format!("an output of {room}"), raw.number, raw, told(&answer))?;
    let other = ours.iter().zip(&theirs).position(|(a, b)| a != b);
    tally.same("hive_merge", &"its output", raw.number, other.map(|n| (n, ours[n])), other.map(|n| (n, theirs[n])))
}

/// Both ways round, by what is known of the pair, and a copy with itself.
pub fn pair(tally: &mut Tally, reached: &mut Reached, pair: &Pair) -> Held<()> {
    let (first, second, room) = (&pair.first, &pair.second, pair.room);
    let [answer, swapped] = [(first, second), (second, first)].map(|(a, b)| merge(a, b, room));
    pair.known.agrees(&answer)?;
    reached.add(pair, &answer, &swapped);
    hold(tally, first, second, room)?;
    hold(tally, second, first, room)?;
    hold(tally, first, first, room)
}
