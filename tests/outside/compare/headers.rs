//! H lines held: each of a file, each damaged in the way that the turn has, and lines of other kinds.

use crate::hold::{Held, Tally, told, unanswered};
use crate::library::{self, ANSWER, Told};
use outside::files::headers::damaged;
use outside::files::random::Random;
use outside::files::reached_headers::Reached;
use outside::reading::{Header, read_header};

fn values(h: &Header) -> [u64; 6] {
    let [x, y, z] = h.code.map(u64::from);
    [h.source.into(), x, y, z, h.text.start as u64, h.text.length as u64]
}

fn hold(tally: &mut Tally, reached: &mut Reached, line: &[u8], is_second: bool) -> Held<()> {
    let mut answer = [library::BEFORE; ANSWER];
    let number = library::header(line, &mut answer);
    let expected = read_header(line);
    reached.add(line, is_second, &expected);
    tally.same("hive_header", &line, number, Told { number, answer }, told(&expected, values))
}

/// The lines of a file, by their bounds: its H lines and these damaged, and one other line in so many; of files with many lines the first alone.
pub fn file(tally: &mut Tally, reached: &mut Reached, turn: u64, file: &[u8], lines: &[(usize, usize)]) -> Held<()> {
    let mut random = Random::new(turn ^ 0x4EAD);
    for (n, &(start, end)) in (0..).zip(lines.iter().take(400)) {
        let line = &file[start..end];
        if line.first() == Some(&b'H') {
            hold(tally, reached, line, n == 1)?;
            hold(tally, reached, &damaged(&mut random, turn / 4 + n, line), false)?;
        } else if (turn / 4 + n) % 16 == 0 {
            hold(tally, reached, line, false)?;
        }
    }
    let line = lines.get(turn as usize % 3).map_or(&b"HFDTE150724"[..], |&(start, end)| &file[start..end]);
    unanswered::<()>(tally, "hive_header", turn, &[], |_, answer| library::header(line, answer))
}
