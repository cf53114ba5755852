//! Sets as bits: of barriers or constructs one word, of nodes three.

/// A set of nodes.
pub type Nodes = [u64; 3];

/// A set of barriers or constructs for each node. A byte indexes it without a bounds check.
pub type Masks = [u64; 256];

/// The members of a word.
#[inline(always)]
pub fn bits(mut set: u64) -> impl Iterator<Item = usize> {
    std::iter::from_fn(move || {
        let bit = set.trailing_zeros() as usize;
        if bit == 64 {
            return None;
        }
        set &= set - 1;
        Some(bit & 63)
    })
}

#[inline(always)]
pub fn members(set: &Nodes) -> impl Iterator<Item = usize> + '_ {
    (0..3).flat_map(|word| bits(set[word]).map(move |bit| 64 * word + bit))
}

/// Joins a set to the entries of a mask's members.
#[inline(always)]
pub fn join_at(entries: &mut [u64; 64], mask: u64, set: u64) {
    let mut left = mask;
    while left != 0 {
        entries[left.trailing_zeros() as usize & 63] |= set;
        left &= left - 1;
    }
}

/// A byte for each byte of a word, 1 in all.
pub const ONES: u64 = 0x0101_0101_0101_0101;

/// Bit j: whether byte j, 0 or 1, is 1.
#[inline(always)]
pub fn packed(bytes: u64) -> u64 {
    bytes.wrapping_mul(0x0102_0408_1020_4080) >> 56
}

/// Byte j: bit j of the index.
pub const SPREAD: [u64; 256] = {
    let mut table = [0u64; 256];
    let mut byte = 0;
    while byte < 256 {
        let mut j = 0;
        while j < 8 {
            table[byte] |= ((byte as u64 >> j) & 1) << (8 * j);
            j += 1;
        }
        byte += 1;
    }
    table
};
