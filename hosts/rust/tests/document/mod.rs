//! The checkpoint file as the document words it, written apart from the library.

/// "Four bytes, big-endian, counting all that follows; one version byte 1; nx and ny as two bytes each; the step number as
/// four; then every entry's 64 bits in buffer order, eight bytes big-endian."
pub fn checkpoint(nx: u16, ny: u16, step: u32, f: &[f64]) -> Vec<u8> {
    let mut follows = vec![1];
    follows.extend(nx.to_be_bytes());
    follows.extend(ny.to_be_bytes());
    follows.extend(step.to_be_bytes());
    for entry in f {
        follows.extend(entry.to_bits().to_be_bytes());
    }
    let count = follows.len() as u32;
    [&count.to_be_bytes(), &follows[..]].concat()
}
