//! Numbers for games by the seed.

use crate::Lcg;

/// The limits of vertices, degree and priorities.
pub const SEED_LIMITS: [u32; 3] = [512, 16, 65_535];

/// A seed, and numbers of vertices, mostly at most `most`, of edges out of each, and of priorities; some are
/// at their limits or beyond, as some products of vertices and edges are.
pub fn seed_numbers(lcg: &mut Lcg, most: usize) -> [u32; 4] {
    let seed = lcg.draw();
    let seed = lcg.pick(&[0, 1, u32::MAX, seed, seed, seed]);
    let few = lcg.between(1, 8);
    let priorities = lcg.pick(&[few, few, few, 65_535]);
    let mut numbers =
        [seed, lcg.between(1, most) as u32, lcg.between(1, 16) as u32, priorities as u32];
    if lcg.once_in(8) {
        let degree = lcg.between(8, 16) as u32;
        [numbers[1], numbers[2]] = [4_096 / degree + lcg.below(2) as u32, degree];
    }
    if lcg.once_in(4) {
        let which = lcg.below(3);
        let limit = SEED_LIMITS[which];
        numbers[1 + which] = lcg.pick(&[0, limit, limit + 1, u32::MAX]);
    }
    numbers
}
