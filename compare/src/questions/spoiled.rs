//! The ways to spoil a file, whatever it holds behind its count and its version.

use crate::made::Made;

/// A file that is being spoiled, perhaps cut short already.
pub struct Spoiled(pub Vec<u8>);

/// Spoils one thing of a file, or makes it another good one.
pub type Fault = fn(&mut Spoiled, &mut Made);

impl Spoiled {
    /// Spoils it in one of these ways, which are its kind's own, or in one of those below.
    pub fn spoil(&mut self, own: &[Fault], made: &mut Made) {
        let at = made.below((FAULTS.len() + own.len()) as u64) as usize;
        FAULTS.get(at).unwrap_or_else(|| &own[at - FAULTS.len()])(self, made);
    }

    /// A number of so many bytes that stands in it; what is cut off counts as 0.
    pub fn number(&self, at: usize, width: usize) -> u64 {
        let byte = |at| self.0.get(at).copied().unwrap_or(0);
        (at..at + width).fold(0, |number, at| number << 8 | u64::from(byte(at)))
    }

    pub fn count(&self) -> u32 {
        self.number(0, 4) as u32
    }

    /// Puts bytes over those that it has, as far as it goes.
    pub fn put(&mut self, at: usize, bytes: &[u8]) {
        for (to, &byte) in self.0.iter_mut().skip(at).zip(bytes) {
            *to = byte;
        }
    }

    pub fn put_count(&mut self, count: u32) {
        self.put(0, &count.to_be_bytes());
    }

    /// Gives it another length, any bytes behind, and the count that suits it.
    pub fn resize(&mut self, length: usize, made: &mut Made) {
        self.0.resize_with(length, || made.next() as u8);
        self.put_count((length as u32).wrapping_sub(4));
    }

    /// Makes the number in these bytes little-endian.
    pub fn turn_round(&mut self, (from, to): (usize, usize)) {
        if let Some(number) = self.0.get_mut(from..to) {
            number.reverse();
        }
    }
}

const FAULTS: [Fault; 10] = [
    change_a_byte,
    change_a_first_byte,
    swap_bytes,
    shift_bytes,
    cut,
    cut_early,
    lengthen,
    other_version,
    other_count,
    other_length_and_count,
];

fn change_a_byte(file: &mut Spoiled, made: &mut Made) {
    let at = made.below(1 + file.0.len() as u64) as usize;
    file.put(at, &[made.next() as u8]);
}

fn change_a_first_byte(file: &mut Spoiled, made: &mut Made) {
    let (at, any) = (made.below(13) as usize, made.next() as u8);
    file.put(at, &[made.pick(&[any, 0, 1, 2, 0x7f, 0x80, 0xff])]);
}

fn swap_bytes(file: &mut Spoiled, made: &mut Made) {
    let among = made.pick(&[13, file.0.len()]).min(file.0.len()) as u64;
    if among > 0 {
        file.0.swap(made.below(among) as usize, made.below(among) as usize);
    }
}

/// One byte is lost, and one comes at the end: the length stays.
fn shift_bytes(file: &mut Spoiled, made: &mut Made) {
    if !file.0.is_empty() {
        file.0.remove(made.below(file.0.len() as u64) as usize);
        file.0.push(made.next() as u8);
    }
}

fn cut(file: &mut Spoiled, made: &mut Made) {
    file.0.truncate(made.below(1 + file.0.len() as u64) as usize);
}

fn cut_early(file: &mut Spoiled, made: &mut Made) {
    file.0.truncate(made.below(14) as usize);
}

fn lengthen(file: &mut Spoiled, made: &mut Made) {
    let by = made.pick(&[1, 2, 4, 8, 9, 72, 256]);
    file.0.resize_with(file.0.len() + by, || made.next() as u8);
}

fn other_version(file: &mut Spoiled, made: &mut Made) {
    file.put(4, &[made.pick(&[0, 2, 3, 0x10, 0x81, 0xff])]);
}

/// Off by what a reader may forget, or by what a narrower number loses.
fn other_count(file: &mut Spoiled, made: &mut Made) {
    let (right, any) = ((file.0.len() as u32).wrapping_sub(4), made.next() as u32);
    let by = made.pick(&[1, 4, 5, 9, 13, 72, 1 << 8, 1 << 16, 1 << 24, 1 << 31, right, any]);
    file.put_count(made.pick(&[right.wrapping_add(by), right.wrapping_sub(by)]));
}

/// The count suits the length, and neither suits the sides.
fn other_length_and_count(file: &mut Spoiled, made: &mut Made) {
    let by = made.pick(&[1, 4, 8, 9, 13, 72, 144]);
    let length = made.pick(&[file.0.len() + by, file.0.len().saturating_sub(by)]);
    file.resize(length, made);
}
