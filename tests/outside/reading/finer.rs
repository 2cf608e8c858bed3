//! Finer positions and times: the counts of a fix with the digits of its LAD, LOD and TDS columns. Only B lines are refined, by the I layout; in K and N lines these are columns
//! like any other.

use super::fields::{Axis, EAST_WEST, NORTH_SOUTH, Position};
use super::layouts::{Entry, Layout};
use super::lines::Fix;

/// "A count with a number of extra decimals": seconds of the day, or thousandths of a minute, where there are none.
#[derive(Clone, Copy, PartialEq, Eq, Debug)]
pub struct Finer {
    pub count: u64,
    pub decimals: u8,
}

impl Finer {
    /// A count with "none without the column".
    pub const fn whole(count: u64) -> Finer {
        Finer { count, decimals: 0 }
    }

    /// "The old count times ten for each digit, plus the digits of LAD, LOD or TDS".
    pub fn with_digits(self, digits: &[u8]) -> Finer {
        digits.iter().fold(self, |f, c| Finer { count: f.count * 10 + u64::from(c - b'0'), decimals: f.decimals + 1 })
    }

    /// "The count without the extra digits". No count that a u64 holds has 20 digits behind its first.
    pub fn plain(&self) -> u64 {
        10u64.checked_pow(self.decimals.into()).map_or(0, |power| self.count / power)
    }
}

/// A fix by its 35 bytes, refined by the columns of its line, which keep their rules.
pub fn refined(fix: Fix, line: &[u8], layout: &Layout) -> Fix {
    let with = |count: Finer, code: &[u8; 3]| layout.look_up(code).map_or(count, |e| count.with_digits(e.text(line)));
    Fix {
        time: with(fix.time, b"TDS"),
        latitude: Position { count: with(fix.latitude.count, b"LAD"), ..fix.latitude },
        longitude: Position { count: with(fix.longitude.count, b"LOD"), ..fix.longitude },
        ..fix
    }
}

/// "LAD or LOD digits other than zeros break their column's rule where the plain count is already at its limit."
pub fn passes_a_limit(fix: &Fix, line: &[u8], column: &Entry) -> bool {
    let is_at_limit = |p: &Position, axis: Axis| p.count.plain() == axis.most;
    let at_limit = match &column.code {
        b"LAD" => is_at_limit(&fix.latitude, NORTH_SOUTH),
        b"LOD" => is_at_limit(&fix.longitude, EAST_WEST),
        _ => false,
    };
    at_limit && column.text(line).iter().any(|&c| c != b'0')
}
