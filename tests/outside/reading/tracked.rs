//! What `igc track` prints of a file: a line for each fix, with its fields apart by single spaces and no heading, as a spreadsheet or a plotter takes it.

use super::fields::{LEAP, Position};
use super::finer::Finer;
use super::track::Record;

/// HH:MM:SS, 23:59:60 for the leap second; then, where there are extra decimals, a point and these.
pub fn clock(time: Finer) -> String {
    let plain = time.plain();
    let seconds =
        if plain == LEAP.into() { "23:59:60".to_string() } else { format!("{:02}:{:02}:{:02}", plain / 3600, plain / 60 % 60, plain % 60) };
    match time.decimals.into() {
        0 => seconds,
        wide => format!("{seconds}.{:0wide$}", time.count % 10u64.pow(wide as u32)),
    }
}

/// Degrees with six decimals, and one more for each extra decimal of the count; south and west negative. The count over 60,000 is count x 50 / 3 millionths, and with extra decimals
/// as many tenths of them: a whole number, or a third above or below one, and never half between two. Count 0 is plain zero under either letter.
pub fn degrees(p: &Position) -> String {
    let Finer { count, decimals } = p.count;
    let (least, wide) = ((count * 50 + 1) / 3, 6 + usize::from(decimals));
    let one = 10u64.pow(wide as u32);
    let minus = if b"SW".contains(&p.letter) && count > 0 { "-" } else { "" };
    format!("{minus}{}.{:0wide$}", least / one, least % one)
}

/// Line, day, time, latitude, longitude, A or V, pressure and GNSS altitude; LF ends the line.
fn shown(r: &Record) -> String {
    let f = &r.fix;
    let place = format!("{} {} {}", degrees(&f.latitude), degrees(&f.longitude), char::from(f.validity));
    format!("{} {} {} {place} {} {}\n", r.line, r.day, clock(f.time), f.pressure, f.gnss)
}

pub fn tracked(track: &[Record]) -> String {
    track.iter().map(shown).collect()
}
