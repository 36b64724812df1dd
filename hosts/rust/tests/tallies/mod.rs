//! The tally and its file as the document words them, written apart from the library.

/// "The sum of all entries' 64-bit patterns, wrapping at 64 bits, and nine more, one per direction plane."
pub fn of(f: &[f64]) -> [u64; 10] {
    let sum = |entries: &[f64]| entries.iter().map(|entry| u128::from(entry.to_bits())).sum::<u128>() as u64;
    let plane = f.len() / 9;
    let mut numbers = [sum(f); 10];
    for i in 0..9 {
        numbers[i + 1] = sum(&f[i * plane..(i + 1) * plane]);
    }
    numbers
}

/// "A four-byte count 81, version byte 1, ten numbers, big-endian."
pub fn file(numbers: &[u64; 10]) -> Vec<u8> {
    let mut file = vec![0, 0, 0, 81, 1];
    for number in numbers {
        file.extend(number.to_be_bytes());
    }
    file
}
