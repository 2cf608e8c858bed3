//! The listed codes by their numbers.

use super::layouts::{LISTED, Listed};
use super::refusals::{Answer, BAD_VALUE, Refusal};

/// Listed code n, "numbered 0 to 14 in this order"; 17 for another number.
pub fn listed_at(n: u32) -> Answer<&'static Listed> {
    LISTED.get(n as usize).ok_or(Refusal::of(BAD_VALUE))
}
