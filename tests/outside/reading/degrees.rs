//! A position for the map.

use super::fields::{Axis, EAST_WEST, NORTH_SOUTH, Position};
use super::finer::Finer;
use super::refusals::{Answer, BAD_VALUE, Refusal};

/// "The count over 60,000, one rounded division, negated for S and W, and plain zero for count 0 under either letter." "The map's degrees use the finer count over 60,000 times
/// that power of ten, still one division." Both are below 2^53, so that each is exact as f64.
fn turned(p: Position, axis: Axis) -> Answer<f64> {
    if !axis.allows(&p) {
        return Err(Refusal::of(BAD_VALUE));
    }
    let Finer { count, decimals } = p.count;
    let size = count as f64 / (60_000 * 10u64.pow(decimals.into())) as f64;
    Ok(if p.letter == axis.letters[1] && count != 0 { -size } else { size })
}

pub fn degrees(latitude: Position, longitude: Position) -> Answer<(f64, f64)> {
    Ok((turned(latitude, NORTH_SOUTH)?, turned(longitude, EAST_WEST)?))
}
