//! The checkpoint file, written and read by the words of the request alone.
//!
//! Four bytes, big-endian, counting all that follows; one version byte 1; nx and ny as two bytes each; the step number as
//! four; then every entry's 64 bits in buffer order, eight bytes big-endian.

/// Why a call is refused, with its number; a file that is read is tested in this order.
#[derive(Clone, Copy, Debug, PartialEq, Eq)]
pub enum Refusal {
    FewerThanFive = 12,
    Version = 13,
    SidesCutShort = 14,
    Sides = 1,
    CountOrLength = 15,
    Buffer = 2,
}

/// What a file says before its entries.
#[derive(Clone, Copy, Debug, PartialEq, Eq)]
pub struct Header {
    pub nx: u64,
    pub ny: u64,
    pub step: u32,
}

/// Cells of the grid, if the rules allow one of these sides.
pub fn cells(nx: u64, ny: u64) -> Option<usize> {
    let allowed = |side: u64| (1..=4096).contains(&side);
    let cells = u128::from(nx) * u128::from(ny);
    (allowed(nx) && allowed(ny) && cells <= 1_048_576).then_some(cells as usize)
}

impl Header {
    fn cells(&self) -> Result<usize, Refusal> {
        cells(self.nx, self.ny).ok_or(Refusal::Sides)
    }

    /// The file with these entries: sides and count keep their low bytes where they are too large for a file.
    pub fn file(&self, f: &[f64]) -> Vec<u8> {
        let mut file = Vec::with_capacity(13 + 8 * f.len());
        file.extend((9 + 8 * f.len() as u32).to_be_bytes());
        file.push(1);
        file.extend((self.nx as u16).to_be_bytes());
        file.extend((self.ny as u16).to_be_bytes());
        file.extend(self.step.to_be_bytes());
        for entry in f {
            file.extend(entry.to_bits().to_be_bytes());
        }
        file
    }

    /// Writes the file with these entries into a lent buffer.
    pub fn write(&self, f: &[f64], into: &mut [u8]) -> Result<(), Refusal> {
        let cells = self.cells()?;
        if f.len() != 9 * cells || into.len() != 13 + 72 * cells {
            return Err(Refusal::Buffer);
        }
        into.copy_from_slice(&self.file(f));
        Ok(())
    }

    /// Reads what a file says before its entries, and whether it is a file at all.
    pub fn read(file: &[u8]) -> Result<Header, Refusal> {
        let [c0, c1, c2, c3, version, rest @ ..] = file else { return Err(Refusal::FewerThanFive) };
        if *version != 1 {
            return Err(Refusal::Version);
        }
        let [x0, x1, y0, y1, rest @ ..] = rest else { return Err(Refusal::SidesCutShort) };
        let [nx, ny] = [[*x0, *x1], [*y0, *y1]].map(|side| u64::from(u16::from_be_bytes(side)));
        let follow = 9 + 72 * Header { nx, ny, step: 0 }.cells()?;
        let count = u32::from_be_bytes([*c0, *c1, *c2, *c3]);
        if count as usize != follow || file.len() != 4 + follow {
            return Err(Refusal::CountOrLength);
        }
        let [s0, s1, s2, s3, ..] = rest else { unreachable!("nine bytes and more follow the count") };
        Ok(Header { nx, ny, step: u32::from_be_bytes([*s0, *s1, *s2, *s3]) })
    }
}

/// Reads a file's entries into a lent buffer.
pub fn read(file: &[u8], into: &mut [f64]) -> Result<Header, Refusal> {
    let header = Header::read(file)?;
    if into.len() != 9 * header.cells()? {
        return Err(Refusal::Buffer);
    }
    for (entry, bytes) in into.iter_mut().zip(file[13..].chunks_exact(8)) {
        let bits = bytes.iter().fold(0, |bits, &byte| bits << 8 | u64::from(byte));
        *entry = f64::from_bits(bits);
    }
    Ok(header)
}
