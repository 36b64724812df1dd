/// A fingerprint of populations: FNV-1a of 64 bits over their patterns, in the order of the buffer, lowest byte first.
pub fn fingerprint(f: &[f64]) -> u64 {
    fnv_1a(f.iter().flat_map(|entry| entry.to_bits().to_le_bytes()))
}

fn fnv_1a(bytes: impl Iterator<Item = u8>) -> u64 {
    bytes.fold(0xcbf2_9ce4_8422_2325, |hash, byte| (hash ^ u64::from(byte)).wrapping_mul(0x100_0000_01b3))
}

#[cfg(test)]
mod tests {
    use super::*;

    #[test]
    fn fnv_1a_gives_its_published_values() {
        assert_eq!(fnv_1a("".bytes()), 0xcbf2_9ce4_8422_2325);
        assert_eq!(fnv_1a("foobar".bytes()), 0x8594_4171_f739_67e8);
    }

    #[test]
    fn the_fingerprint_sees_the_sign_of_zero() {
        assert_ne!(fingerprint(&[0.0]), fingerprint(&[-0.0]));
    }
}
