//! Valid files with columns about as wide as a whole number can be, and texts that are one or just none.

use super::generate::{Maker, digits};
use super::random::Random;
use crate::reading::layouts::FAMILIES;
use crate::reading::{Entry, Family, Layout, Role};

/// One to three columns of unlisted codes, which no other family has: mostly of 16 to 20 bytes, now and then of few.
fn layout(random: &mut Random, family: Family) -> Layout {
    let mut layout = Layout::default();
    for n in 0..random.within(1, 3) {
        let first = layout.length(family) + 1;
        let width = if random.once_in(3) { random.within(1, 3) } else { random.within(16, 20) };
        layout.entries.push(Entry { first, last: first + width - 1, code: [family.kind(), b'Q', b'0' + n as u8] });
    }
    layout
}

/// Digits, perhaps with a minus first, perhaps all 0 or 9; now and then one of the bytes is something else.
fn column(random: &mut Random, width: usize) -> Vec<u8> {
    let mut text = digits(random, width);
    match random.below(4) {
        0 => text.fill(b'0'),
        1 => text.fill(b'9'),
        _ => {}
    }
    if random.once_in(2) {
        text[0] = b'-';
    }
    if random.once_in(4) {
        text[random.below(width)] = *random.pick(b"-+ ./:;Aa");
    }
    text
}

/// A file with up to so many lines of each family.
pub fn wide(random: &mut Random, rows: usize) -> Vec<u8> {
    let layouts = FAMILIES.map(|family| layout(random, family));
    let mut maker = Maker::new(random);
    maker.push(Role::Recorder);
    maker.push(Role::Day);
    for (family, layout) in FAMILIES.into_iter().zip(layouts) {
        *maker.sample.layouts.of_mut(family) = layout;
        maker.push(Role::Layout(family));
    }
    for _ in 0..rows {
        for family in FAMILIES {
            if !maker.random.once_in(5) {
                maker.push(family.role());
            }
        }
    }
    let mut sample = maker.sample;
    for line in &mut sample.lines {
        let Some(family) = FAMILIES.into_iter().find(|family| family.role() == line.role) else { continue };
        for e in &sample.layouts.of(family).entries {
            line.text[e.first - 1..e.last].copy_from_slice(&column(random, e.width()));
        }
    }
    sample.bytes()
}
