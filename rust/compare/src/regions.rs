//! The numbers that name a region of a chart, and numbers that name none.

use charts::random::Random;
use reference::refusals::decode_checked;

/// The outermost region.
pub const OUTERMOST: usize = bohrali::Region::OUTERMOST;

/// Numbers that name no construct, among them those whose low byte or low half is 255 or 0.
pub const BEYOND: [usize; 8] = [
    48,
    254,
    256,
    511,
    1 << 32,
    (1 << 32) + 255,
    usize::MAX - 256,
    usize::MAX,
];

/// The regions of a chart, the outermost last; of one that is refused, some numbers that would be.
pub fn regions_of(chart: &[u8]) -> Vec<usize> {
    match decode_checked(chart) {
        Ok(chart) => chart.regions().into_iter().map(usize::from).collect(),
        Err(_) => vec![0, OUTERMOST],
    }
}

/// A region of the chart, likely the outermost, or now and then a number that may name none.
pub fn any_region(random: &mut Random, chart: &[u8]) -> usize {
    match random.below(8) {
        0 => random.below(256),
        1 => random.pick(&BEYOND),
        2..5 => random.pick(&regions_of(chart)),
        _ => OUTERMOST,
    }
}
