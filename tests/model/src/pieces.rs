//! The pieces in which a file goes through a pipe.

use crate::lines::LONGEST;
use crate::random::Random;

/// So many small pieces at most: each costs a read of the program.
const MOST: usize = 300;

/// The lengths of the pieces of so many bytes. Files differ in what they
/// favour: single bytes, a few, about the longest line, thousands, about
/// 4,096 (the most that `rsmrun` reads at once), or all of them.
pub fn choose(random: &mut Random, bytes: usize) -> Vec<usize> {
    let kinds = random.pick(&[
        &[0][..],
        &[1],
        &[2],
        &[3],
        &[4],
        &[0, 1],
        &[0, 1, 2],
        &[0, 0, 0, 1, 1, 1, 2, 2, 3],
    ]);
    let mut pieces = Vec::new();
    let mut left = bytes;
    // Small pieces may begin anywhere.
    if left > 0 && random.per_mille(500) {
        pieces.push(random.within(1, left));
        left -= pieces[0];
    }
    while left > 0 {
        let length = match random.pick(kinds) {
            _ if pieces.len() > MOST => left,
            0 => 1,
            1 => random.within(2, 9),
            2 => random.within(LONGEST - 1, LONGEST + 3),
            3 => random.within(1000, 9000),
            _ => random.within(4_094, 4_098),
        };
        pieces.push(length.min(left));
        left -= length.min(left);
    }
    pieces
}

#[cfg(test)]
mod tests {
    use super::*;

    #[test]
    fn pieces_are_the_whole() {
        for seed in 0..200 {
            let mut random = Random::new(seed);
            let bytes = random.pick(&[0, 1, 2, 100, 1000, 5000, 40_000]);
            let pieces = choose(&mut random, bytes);
            assert_eq!(pieces.iter().sum::<usize>(), bytes);
            assert!(!pieces.contains(&0));
            assert!(pieces.len() <= MOST + 3);
        }
    }
}
