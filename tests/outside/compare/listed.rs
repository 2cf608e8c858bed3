//! The listed codes held: each by its number, and numbers that have none.

use crate::hold::{Held, Tally, told, unanswered};
use crate::library::{self, ANSWER, Told};
use outside::reading::{Listed, listed_at};

fn values(l: &&Listed) -> [u64; 6] {
    let [x, y, z] = l.code.map(u64::from);
    [x, y, z, l.least as u64, l.most as u64, l.signed.into()]
}

/// 0 to 300, every power of two and its neighbours, and the greatest.
pub fn all(tally: &mut Tally) -> Held<()> {
    let powers = (9..32).flat_map(|n| [(1u32 << n) - 1, 1 << n, (1 << n) + 1, (1 << n) + 14]);
    for (turn, n) in (0..).zip((0..=300).chain(powers).chain([u32::MAX - 1, u32::MAX])) {
        let mut answer = [library::BEFORE; ANSWER];
        let number = library::listed(n, &mut answer);
        tally.same("hive_listed", &n, number, Told { number, answer }, told(&listed_at(n), values))?;
        unanswered::<()>(tally, "hive_listed", turn, &[], |_, answer| library::listed(n, answer))?;
    }
    Ok(())
}
