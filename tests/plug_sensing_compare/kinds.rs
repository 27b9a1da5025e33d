//! Where a value lies that is taken: in one of the ranges, or beside them.

use std::ops::RangeInclusive;

use second::plug::*;
use shared::dice::Dice;

/// Places in the list below.
pub const LOWEST: usize = 1;
pub const MIDDLE: usize = 3;

/// From below, without a gap.
pub const KINDS: [(&str, RangeInclusive<u32>); 7] = [
    ("below the lowest range", 0..=U1C_MIN - 1),
    ("the lowest range", U1C),
    ("below the middle range", U1C_MAX + 1..=U1B_MIN - 1),
    ("the middle range", U1B),
    ("below the 12 V range", U1B_MAX + 1..=U1A_MIN - 1),
    ("the 12 V range", U1A),
    ("above the 12 V range", U1A_MAX + 1..=MOST_MILLIVOLTS),
];

/// Of a value that is taken.
pub fn kind_of(millivolts: u32) -> usize {
    let within = |(_, range): &(&str, RangeInclusive<u32>)| range.contains(&millivolts);
    let found = KINDS.iter().position(within);
    found.expect("a value that is taken")
}

/// A value of the kind, its first and last more often than others.
pub fn draw(kind: usize, dice: &mut Dice) -> u32 {
    let (first, last) = KINDS[kind].1.clone().into_inner();
    let any = first + dice.below(last - first + 1);
    dice.pick(&[first, last, any, any])
}
