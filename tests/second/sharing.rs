//! Dividing the allowance: the level up to which every want is met.

/// A post has one to four leads; the want of a lead that is not there is 0.
pub const MOST_LEADS: usize = 4;

/// "The largest whole number from 0 to the allowance at which the sum of the
/// smaller of want and level is at most the allowance."
///
/// 2026-03: "work it out in at most one step a lead, from the wants taken smallest
/// first". A step meets the next want in full if an equal part of what is left
/// covers it. If not, it is the last step and that part is the level: one watt more
/// for this want and for all those after it would be too much. A want of 0 is met
/// without a step, so that a lead that is not there takes none.
pub fn level(mut wants: [u32; MOST_LEADS], allowance: u32) -> u32 {
    wants.sort_unstable();
    let zeros = wants.partition_point(|&want| want == 0);
    let mut unmet = &wants[zeros..];
    // "The watts carried along are, after each step, the allowance less the wants
    // met in full so far."
    let mut left = allowance;
    while let [want, after @ ..] = unmet {
        let part = left / unmet.len() as u32;
        if *want > part {
            return part;
        }
        left -= want;
        unmet = after;
    }
    // All are met, so nothing but the allowance bounds the level.
    allowance
}

#[cfg(test)]
mod tests {
    use super::*;

    #[test]
    fn levels() {
        for (wants, allowance, expected) in [
            ([10_000, 60_000, 0, 0], 50_000, 40_000),
            ([60_000, 60_000, 0, 0], 50_001, 25_000),
            ([0, 0, 0, 0], 7, 7),
            ([100, 100, 100, 0], 200, 66),
            ([0, 0, 0, 0], 0, 0),
            ([100, 0, 3, 60_000], 0, 0),
            ([1, 2, 3, 4], 10, 10),
            ([1, 2, 3, 4], 9, 3),
            ([u32::MAX; 4], u32::MAX, u32::MAX / 4),
            ([u32::MAX, 0, 0, 0], u32::MAX, u32::MAX),
        ] {
            assert_eq!(level(wants, allowance), expected);
        }
    }

    #[test]
    fn as_the_sentence_says() {
        const SOME: [u32; 7] = [0, 1, 2, 3, 5, 8, 13];
        for mix in 0..SOME.len().pow(4) {
            let wants = [1, 7, 49, 343].map(|place| SOME[mix / place % SOME.len()]);
            for allowance in 0..32 {
                // The document's sentence, tried number by number.
                let sum = |level: u32| wants.map(|want| want.min(level)).iter().sum::<u32>();
                let largest = (0..=allowance).rfind(|&level| sum(level) <= allowance);
                assert_eq!(Some(level(wants, allowance)), largest, "{wants:?}");
            }
        }
    }
}
