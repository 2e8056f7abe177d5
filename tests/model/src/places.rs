//! Random places of accesses over a border between two blocks.

use crate::module::Shape;
use crate::random::Random;

/// First cell and length, of at most `most` cells, over the border before the
/// block or after it; None where no access straddles.
pub fn straddling(
    random: &mut Random,
    shape: &Shape,
    block: usize,
    most: usize,
) -> Option<(usize, usize)> {
    let size = shape.size();
    let most = most.min(size);
    if most < 2 || shape.blocks < 2 {
        return None;
    }
    let last = block + 1 == shape.blocks;
    let after = block == 0 || (!last && random.per_mille(500));
    let border = (block + usize::from(after)) * size;
    let any = random.within(2, most);
    let n = random.pick(&[2, any, most]);
    let before = random.within(1, n - 1);
    Some((border - random.pick(&[1, before, n - 1]), n))
}
