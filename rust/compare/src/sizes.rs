//! Team sizes, and numbers that are none.

use charts::random::Random;

/// Sizes at their limits and at the filters that charts are drawn with.
pub const SIZES: [usize; 10] = [1, 2, 3, 4, 255, 256, 257, 258, 1_023, 1_024];

/// Numbers that are no size, among them those whose low half or low byte would be one.
pub const BEYOND: [usize; 9] = [
    0,
    1_025,
    1_026,
    65_535,
    65_537,
    1 << 32,
    (1 << 32) + 2,
    usize::MAX - 1_023,
    usize::MAX,
];

/// A size, likely a small one, or now and then a number that is none.
pub fn any_size(random: &mut Random) -> usize {
    match random.below(8) {
        0 => random.pick(&BEYOND),
        1 => random.between(1, 1_024),
        2..5 => random.between(1, 4),
        _ => random.pick(&SIZES),
    }
}
