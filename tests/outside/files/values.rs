//! Fixes to be written, positions for the map, and texts: as they were read, or with one thing changed.

use super::generate::digits;
use super::random::Random;
use crate::reading::fields::{EAST_WEST, LEAP, NORTH_SOUTH};
use crate::reading::{Finer, Fix, Layout, Position};

/// A fix to be written with its columns' text: as it was read, or with one thing changed.
pub fn to_write(random: &mut Random, fix: &Fix, columns: &[u8], layout: &Layout) -> (Fix, Vec<u8>) {
    let (mut fix, mut columns) = (*fix, columns.to_vec());
    match random.below(22) {
        0 => fix.time.count = *random.pick(&[86_399, 86_400, 86_401, 360_000, u32::MAX.into()]),
        1 => spoil_letter(random, &mut fix.latitude),
        2 => spoil_letter(random, &mut fix.longitude),
        3 => fix.validity = *random.pick(b"AVB\0"),
        4 => fix.pressure = *random.pick(&[-9_999, -10_000, 99_999, 100_000, 0, -1, i32::MIN, i32::MAX]),
        5 => fix.gnss = *random.pick(&[-9_999, -10_000, 99_999, 100_000, 0, -1, i32::MIN, i32::MAX]),
        6 | 7 => spoil_text(random, &mut columns),
        8 | 9 => spoil_finer(random, &mut fix.time, LEAP.into()),
        10 | 11 => spoil_finer(random, &mut fix.latitude.count, NORTH_SOUTH.most),
        12 | 13 => spoil_finer(random, &mut fix.longitude.count, EAST_WEST.most),
        14 => other_digits(random, &mut fix, &mut columns, layout),
        _ => {}
    }
    // C has a time's count in 32 bits.
    fix.time.count = fix.time.count.min(u32::MAX.into());
    (fix, columns)
}

/// Other digits of the columns that refine the fix, in the counts and in the columns: a fix that can be written, but for one that is then past a limit.
fn other_digits(random: &mut Random, fix: &mut Fix, columns: &mut [u8], layout: &Layout) {
    let finer = [(b"LAD", &mut fix.latitude.count), (b"LOD", &mut fix.longitude.count), (b"TDS", &mut fix.time)];
    for (code, finer) in finer {
        let Some(e) = layout.look_up(code) else { continue };
        let digits = digits(random, e.width());
        columns[e.first - 36..e.last - 35].copy_from_slice(&digits);
        *finer = Finer::whole(finer.plain()).with_digits(&digits);
    }
}

/// A position for the map, with one thing changed.
pub fn spoil_position(random: &mut Random, p: &mut Position, most: u64) {
    match random.below(3) {
        0 => spoil_letter(random, p),
        _ => spoil_finer(random, &mut p.count, most),
    }
}

fn spoil_letter(random: &mut Random, p: &mut Position) {
    p.letter = *random.pick(b"NSEWn\0\xFF");
}

/// A count with another last digit, with more or fewer decimals, the same value told with more or fewer, at its limit and past it, or any.
fn spoil_finer(random: &mut Random, finer: &mut Finer, most: u64) {
    let decimals = finer.decimals;
    match random.below(10) {
        0 => finer.count += 1,
        1 => finer.count = finer.count.saturating_sub(1),
        2 => finer.decimals = decimals.wrapping_sub(1),
        3 => finer.decimals += 1,
        4 => *finer = Finer { count: finer.count * 10, decimals: decimals + 1 },
        5 if decimals > 0 => *finer = Finer { count: finer.count / 10, decimals: decimals - 1 },
        6 => finer.decimals = *random.pick(&[0, 1, 2, 3, 4, 5, 6, 19, 20, 64, 255]),
        7 => *finer = Finer { count: most * 10u64.pow(decimals.into()) + random.below(2) as u64, decimals },
        8 => {
            let decimals = random.below(6) as u8;
            *finer = Finer { count: most * 10u64.pow(decimals.into()) + random.below(2) as u64, decimals };
        }
        _ => finer.count = *random.pick(&[0, 1, most, most + 1, 1 << 32, 1 << 53, u64::MAX]),
    }
}

/// A byte changed, put in or taken out.
pub fn spoil_text(random: &mut Random, text: &mut Vec<u8>) {
    match random.below(4) {
        0 => text.push(b'0'),
        1 => drop(text.pop()),
        _ if text.is_empty() => {}
        2 => {
            let at = random.below(text.len());
            text[at] = *random.pick(b"-,A0 \r\n\xFF!");
        }
        _ => text.extend(vec![b'x'; random.below(300)]),
    }
}
