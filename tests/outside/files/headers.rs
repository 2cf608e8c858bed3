//! H lines to be taken apart: those of a file, damaged ones, and lines of other kinds.

use super::random::Random;

/// Characters at the ends of those that a rule takes, the comma, and some that are no characters of a line.
const SHARP: &[u8] = b" !$*,-./09:;<=>?@AFGNOPZ[\\]^_`afoz{}~\0\r\n\x7F\x80\xFF";

/// How many ways there are to damage a line.
const WAYS: u64 = 17;

/// An H line damaged in one way after the other, which its turn says: 7, 8, 9 at either byte, 17, two of these at once; and damage that leaves it good.
pub fn damaged(random: &mut Random, turn: u64, line: &[u8]) -> Vec<u8> {
    let mut text = line.to_vec();
    text.resize(text.len().max(5), b'A');
    let least = text.len();
    let sharp = |random: &mut Random| *random.pick(SHARP);
    match turn % WAYS {
        0 => text[1] = sharp(random),
        1 => text[2] = sharp(random),
        2 => text[3] = sharp(random),
        3 => text[4] = sharp(random),
        4 => text.push(sharp(random)),
        5 => text.truncate(random.within(1, 4)),
        6 => text.clear(),
        7 => text.resize(255, b' '),
        8 => text.resize(256, b','),
        9 => text.resize(random.within(257, 600), b'x'),
        10 => text[0] = *random.pick(b"hGIAL\0\xC8"),
        11 => (text[1], text[random.within(2, 4)]) = (*random.pick(b"PfGN"), b'a'),
        12 => (text[1], text[random.within(2, least - 1)]) = (*random.pick(b"PfGN"), b'!'),
        13 => text = [b"HO", &text[2..5], b",", &text[5..]].concat(),
        14 => text = [b"I", &text[1..], &[b'x'; 251]].concat(),
        15 => text = [&text[..4], b"!"].concat()[..random.within(3, 5)].to_vec(),
        _ => text[random.within(5, least).min(least - 1)] = sharp(random),
    }
    text
}
