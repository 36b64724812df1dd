//! Tallies against the document: each number, each byte, each entry that moves them, each refusal in its order.

mod document;
mod tallies;

use brothwagon::{Checkpoint, Face, Refusal, Settings, Study, Tally, ffi};

/// Populations whose patterns all differ, and wrap when they are summed; a NaN is among them.
fn populations(cells: usize) -> Vec<f64> {
    let mut f: Vec<f64> = (0..9 * cells as u64).map(|at| f64::from_bits(0xbf01_0203_0405_0607 + (at << 24))).collect();
    f[5] = f64::from_bits(0xfff0_dead_beef_0001);
    f
}

fn bits(f: &[f64]) -> Vec<u64> {
    f.iter().map(|entry| entry.to_bits()).collect()
}

fn sides(nx: u64, ny: u64) -> ffi::Settings {
    ffi::Settings { nx, ny, ..ffi::Settings::default() }
}

#[test]
fn the_numbers_and_the_bytes_are_those_of_the_document() {
    for (nx, ny) in [(1, 1), (3, 2), (2, 3), (1, 300), (513, 2)] {
        let f = populations(nx * ny);
        let numbers = tallies::of(&f);
        let mut study = Study::new(Settings::new(nx, ny, 0.1)).unwrap();
        study.f_mut().copy_from_slice(&f);
        let tally = Checkpoint::new(nx, ny, 350, f).unwrap().tally().unwrap();
        assert_eq!((tally.all(), tally.planes()), (numbers[0], &numbers[1..]), "{nx} by {ny}");
        assert_eq!(study.tally(), Ok(tally), "{nx} by {ny}");
        let file = tally.write().unwrap();
        assert_eq!((file.len(), &file), (Tally::BYTES, &tallies::file(&numbers)), "{nx} by {ny}");
        assert_eq!(Tally::read(&file), Ok(tally), "{nx} by {ny}");
    }
}

#[test]
fn a_file_is_refused_as_the_document_orders() {
    let good = tallies::file(&tallies::of(&populations(6)));
    let with = |at: usize, byte: u8| [&good[..at], &[byte], &good[at + 1..]].concat();
    for length in 0..good.len() {
        let expected = if length < 5 { Refusal::FileShort } else { Refusal::FileLength };
        assert_eq!(Tally::read(&good[..length]), Err(expected), "{length} bytes");
    }
    assert_eq!(Tally::read(&[&good[..], &[0]].concat()), Err(Refusal::FileLength));
    assert_eq!(Tally::read(&with(3, 80)), Err(Refusal::FileLength));
    assert_eq!(Tally::read(&with(0, 1)), Err(Refusal::FileLength));
    // Another version comes before a wrong count or length, and those before numbers that do not wrap.
    assert_eq!(Tally::read(&with(4, 2)), Err(Refusal::FileVersion));
    assert_eq!(Tally::read(&with(4, 0)[..5]), Err(Refusal::FileVersion));
    let apart = with(84, !good[84]);
    assert_eq!(Tally::read(&apart), Err(Refusal::Tally));
    assert_eq!(Tally::read(&apart[..84]), Err(Refusal::FileLength));
    // A checkpoint of one cell has as many bytes, and the same count and version.
    assert_eq!(Tally::read(&document::checkpoint(1, 1, 0, &populations(1))), Err(Refusal::Tally));
}

#[test]
fn a_refused_call_on_files_writes_nothing() {
    let numbers = tallies::of(&populations(6));
    let good = tallies::file(&numbers);
    let apart = numbers.map(|number| number + 1);
    for (file, length, number) in [
        (&good[..], 9, 2),
        (&good, 11, 2),
        (&good, 0, 2),
        (&tallies::file(&apart), 9, 17),
        (&good[..84], 9, 15),
        (&good[1..], 9, 13),
        (&good[..4], 9, 12),
    ] {
        let mut tally = vec![7; length];
        assert_eq!(ffi::read_tally(file, &mut tally), number);
        assert!(tally.iter().all(|&kept| kept == 7), "{number}");
    }
    for (numbers, length, number) in [(numbers, 84, 2), (numbers, 86, 2), (apart, 84, 17), (apart, 85, 17)] {
        let mut file = vec![0xa5; length];
        assert_eq!(ffi::write_tally(&numbers, &mut file), number);
        assert!(file.iter().all(|&kept| kept == 0xa5), "{number}");
    }
}

#[test]
fn a_tally_is_refused_for_sides_and_then_for_the_length() {
    for (settings, entries, number) in
        [(sides(0, 2), 53, 1), (sides(4097, 1), 54, 1), (sides(3, 2), 53, 2), (sides(3, 2), 55, 2)]
    {
        assert_eq!(ffi::tally(&settings, &vec![0.25; entries]), (number, [0; 10]));
    }
}

#[test]
fn a_written_entry_takes_the_tally_along() {
    let mut checkpoint = Checkpoint::new(3, 2, 350, populations(6)).unwrap();
    let (mut tally, mut f) = (checkpoint.tally().unwrap(), populations(6));
    for at in 0..54 {
        let (x, y, direction) = (at % 3, at / 3 % 2, at / 6);
        for pattern in [0, u64::MAX, 0x7ff0_dead_beef_0001, 0x3f01_0203_0405_0607] {
            checkpoint.write_entry(x, y, direction, pattern, &mut tally).unwrap();
            f[at] = f64::from_bits(pattern);
            assert_eq!(bits(checkpoint.f()), bits(&f));
            assert_eq!(tally.write().unwrap(), tallies::file(&tallies::of(&f)), "x {x}, y {y}, direction {direction}");
        }
    }
}

#[test]
fn any_ten_numbers_are_moved_by_the_new_pattern_less_the_old() {
    let mut f = populations(6);
    let before = [3, 1, 4, 1, 5, 9, 2, 6, u64::MAX, 3];
    let mut tally = before;
    // Entry (2, 1, 7).
    let old = f[47].to_bits();
    assert_eq!(ffi::write_entry(&sides(3, 2), 2, 1, 7, 5, &mut f, &mut tally), 0);
    let moved = |number: u64| number.wrapping_add(5).wrapping_sub(old);
    let expected: Vec<u64> = (0..10).map(|at| if at == 0 || at == 8 { moved(before[at]) } else { before[at] }).collect();
    assert_eq!(tally[..], expected);
}

#[test]
fn a_refused_entry_changes_neither_state_nor_tally() {
    let cases = [
        (sides(0, 2), 54, (3, 2, 9), 1),
        (sides(3, 2), 53, (3, 2, 9), 2),
        (sides(3, 2), 54, (3, 0, 0), 6),
        (sides(3, 2), 54, (0, 2, 0), 6),
        (sides(3, 2), 54, (0, 0, 9), 6),
        (sides(3, 2), 54, (usize::MAX, usize::MAX, usize::MAX), 6),
    ];
    for (settings, entries, (x, y, direction), number) in cases {
        let (mut f, mut tally) = (vec![2.5; entries], [7; 10]);
        assert_eq!(ffi::write_entry(&settings, x, y, direction, 5, &mut f, &mut tally), number);
        assert!(f.iter().all(|&entry| entry == 2.5) && tally == [7; 10], "{number}");
    }
    let mut checkpoint = Checkpoint::new(3, 2, 350, populations(6)).unwrap();
    let mut tally = checkpoint.tally().unwrap();
    assert_eq!(checkpoint.write_entry(3, 0, 0, 5, &mut tally), Err(Refusal::Place));
    assert_eq!(checkpoint.tally(), Ok(tally));
}

#[test]
fn the_planes_that_differ_are_named() {
    let stored = Checkpoint::new(3, 2, 350, populations(6)).unwrap().tally().unwrap();
    assert_eq!(stored.differing_planes(&stored), []);
    let mut f = populations(6);
    f.swap(3 * 6 + 1, 7 * 6 + 2);
    let other = Checkpoint::new(3, 2, 350, f).unwrap().tally().unwrap();
    // What went from one plane to another is in both, and not in the sum of all.
    assert_eq!((stored.differing_planes(&other), stored.all()), (vec![3, 7], other.all()));
}

#[test]
fn lossless_streaming_keeps_the_first_number() {
    let (wall, open) = ([Face::NoSlip; 2], [Face::Periodic; 2]);
    for (nx, ny, [x_min, x_max], [y_min, y_max]) in
        [(5, 4, open, open), (5, 4, wall, wall), (1, 6, open, wall), (3, 1, wall, open)]
    {
        let mut study = Study::new(Settings { x_min, x_max, y_min, y_max, ..Settings::new(nx, ny, 0.1) }).unwrap();
        study.post_mut().copy_from_slice(&populations(nx * ny));
        let post = tallies::of(study.post());
        study.stream_with_faces().unwrap();
        assert_eq!(study.tally().unwrap().all(), post[0], "{nx} by {ny}");
    }
}
