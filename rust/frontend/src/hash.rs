//! FNV-1a of 64 bits: tells bytes that have changed, as frontend/gcc does.

/// That of no bytes.
pub(crate) const NO_BYTES: u64 = 0xcbf2_9ce4_8422_2325;

/// With some bytes more.
pub(crate) fn hash_on(from: u64, bytes: &[u8]) -> u64 {
    let step = |sum: u64, &byte: &u8| (sum ^ u64::from(byte)).wrapping_mul(0x0100_0000_01b3);
    bytes.iter().fold(from, step)
}

/// In 16 hexadecimal digits.
pub fn hash(bytes: &[u8]) -> String {
    format!("{:016x}", hash_on(NO_BYTES, bytes))
}

#[cfg(test)]
mod tests {
    use super::hash;

    #[test]
    fn the_known_sums() {
        assert_eq!(hash(b""), "cbf29ce484222325");
        assert_eq!(hash(b"a"), "af63dc4c8601ec8c");
        assert_eq!(hash(b"foobar"), "85944171f73967e8");
    }
}
