//! What `igc summary` prints of a file, before the file's name: a line with its fields apart by single spaces, as many for each file.

use super::fields::{Date, Position};
use super::finer::Finer;
use super::summary::numbers;
use super::track::Record;
use super::tracked::{clock, degrees};

/// A time as `igc track` has it, and behind it the number of a day above 0, as +1.
fn moment(day: i32, seconds: i32) -> String {
    let time = clock(Finer::whole(seconds as u64));
    if day > 0 { format!("{time}+{day}") } else { time }
}

/// H:MM:SS, of days with 86,400 seconds each.
fn between(first: (i32, i32), last: (i32, i32)) -> String {
    let since = |(day, seconds): (i32, i32)| i64::from(day) * 86_400 + i64::from(seconds);
    let lasted = since(last) - since(first);
    format!("{}:{:02}:{:02}", lasted / 3600, lasted / 60 % 60, lasted % 60)
}

/// A signed count in degrees, as `igc track` has them.
fn side(count: i32) -> String {
    degrees(&Position::whole(count.unsigned_abs().into(), if count < 0 { b'S' } else { b'N' }))
}

/// Date; time of the first and of the last fix; duration; highest and lowest pressure altitude; number of fixes; least and greatest latitude, least and greatest longitude. A dash for each that
/// there is nothing to tell of: all but the number where there is no fix, the sides of the box where none is marked A.
pub fn outlined(date: &Date, track: &[Record]) -> String {
    let dash = || "-".to_string();
    let [count, day, seconds, last_day, last_seconds, highest, lowest, has_position, south, north, west, east] = numbers(track);
    let (first, last) = ((day, seconds), (last_day, last_seconds));
    let flown = match count {
        0 => [(); 5].map(|()| dash()),
        _ => [moment(first.0, first.1), moment(last.0, last.1), between(first, last), highest.to_string(), lowest.to_string()],
    };
    let sides = if has_position == 1 { [south, north, west, east].map(side) } else { [(); 4].map(|()| dash()) };
    format!("{}-{:02}-{:02} {} {count} {}", date.year, date.month, date.day, flown.join(" "), sides.join(" "))
}
