//! What the comparison, the sample and the times share: the source's types and ours, numbers to try, and equality of bits with all NaNs as
//! one.

/// The source's types.
pub use oracle;
pub use traces::{leaf, proved, Numbers};

/// The bits of a float, with every NaN as one.
pub fn bits(x: f32) -> u32 {
    if x.is_nan() {
        0x7FC0_0000
    } else {
        x.to_bits()
    }
}

/// The number that a frequency gets: 11 where Exact gets one below -0.497.
pub fn frequency_refusal(f: f32, approximation: oracle::FrequencyApproximation) -> u8 {
    if approximation == oracle::FrequencyApproximation::Exact && f < oracle::EXACT_LOWEST {
        11
    } else {
        0
    }
}

/// What a setter may get for a frequency: anything, with the numbers below 0 more often than `Numbers::any` has them.
pub fn setting(n: &mut Numbers) -> f32 {
    match n.below(4) {
        0 => f32::from_bits(oracle::MIRRORED[n.below(oracle::MIRRORED.len() as u64) as usize]),
        1 => -n.frequency(),
        _ => n.any(),
    }
}
