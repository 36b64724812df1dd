//! What lent buffers hold, in words.

/// Entries that are shown.
const SHOWN: usize = 36;

/// The bytes of a file: the numbers of its head, which are so many bytes wide each, and its entries apart.
pub fn bytes(file: &[u8], head: &[usize]) -> String {
    let (mut said, mut rest) = (Vec::new(), file);
    for &width in head.iter().chain(&[8; SHOWN]) {
        let (part, after) = rest.split_at(rest.len().min(width));
        said.extend((!part.is_empty()).then(|| part.iter().map(|byte| format!("{byte:02x}")).collect()));
        rest = after;
    }
    if !rest.is_empty() {
        said.push(format!("and {} bytes more", rest.len()));
    }
    said.join(" ")
}

/// The patterns of entries, where they are not many.
pub fn patterns(entries: &[f64]) -> String {
    let shown = entries.iter().take(SHOWN).map(|entry| format!("{:016x}", entry.to_bits()));
    let more = (entries.len() > SHOWN).then(|| format!("and {} entries more", entries.len() - SHOWN));
    shown.chain(more).collect::<Vec<String>>().join(" ")
}
