//! Checkpoints against the document: each byte that is written, each bit that comes back, each refusal in its order.

mod document;

use brothwagon::{Checkpoint, OtherSides, Refusal, Settings, Study, ffi};

/// Populations of all sorts: both zeros, infinities, a subnormal, NaNs with a payload, and numbers whose bytes all differ.
fn populations(cells: usize) -> Vec<f64> {
    let special = [0, 1 << 63, 0x7ff0 << 48, 0xfff0 << 48, 1, 0x7ff0_dead_beef_0001, 0xffff_ffff_ffff_ffff];
    let plain = (0u64..).map(|at| 0x3f01_0203_0405_0607 + (at << 24));
    special.into_iter().chain(plain).take(9 * cells).map(f64::from_bits).collect()
}

fn bits(f: &[f64]) -> Vec<u64> {
    f.iter().map(|entry| entry.to_bits()).collect()
}

fn refusal(file: &[u8]) -> Refusal {
    Checkpoint::read(file).unwrap_err()
}

#[test]
fn the_bytes_are_those_of_the_document() {
    assert_eq!(document::checkpoint(1, 1, 0, &[0.0; 9]).len(), 85);
    for (nx, ny, step) in [(1, 1, 0), (3, 2, 350), (1, 300, 0x0102_0304), (513, 2, u32::MAX)] {
        let f = populations(nx * ny);
        let expected = document::checkpoint(nx as u16, ny as u16, step, &f);
        assert_eq!(Checkpoint::new(nx, ny, step, f).unwrap().write().unwrap(), expected, "{nx} by {ny}");
    }
}

#[test]
fn what_was_written_comes_back_with_the_same_bits() {
    for (nx, ny, step) in [(1, 1, u32::MAX), (3, 2, 0), (2, 3, 350)] {
        let f = populations(nx * ny);
        let file = document::checkpoint(nx as u16, ny as u16, step, &f);
        let read = Checkpoint::read(&file).unwrap();
        assert_eq!((read.sides(), read.step()), ((nx, ny), step));
        assert_eq!(bits(read.f()), bits(&f));
        assert_eq!(read.write().unwrap(), file);
    }
}

#[test]
fn the_largest_grid_comes_and_goes() {
    let f = populations(4096 * 256);
    let file = document::checkpoint(4096, 256, 7, &f);
    let read = Checkpoint::read(&file).unwrap();
    assert!(bits(read.f()) == bits(&f) && read.write().unwrap() == file);
}

#[test]
fn a_file_that_is_cut_or_too_long_is_refused_as_the_document_orders() {
    let file = document::checkpoint(3, 2, 350, &populations(6));
    for length in 0..file.len() {
        let expected = match length {
            0..5 => Refusal::FileShort,
            5..9 => Refusal::FileSides,
            _ => Refusal::FileLength,
        };
        assert_eq!(refusal(&file[..length]), expected, "{length} bytes");
    }
    assert_eq!(refusal(&[&file[..], &[0]].concat()), Refusal::FileLength);
}

#[test]
fn a_wrong_byte_is_refused_before_what_comes_later() {
    let with = |at: usize, byte: u8| {
        let mut file = document::checkpoint(3, 2, 350, &populations(6));
        file[at] = byte;
        file
    };
    // The count says one byte more than follows, or 2^24 more.
    assert_eq!(refusal(&with(3, 0xba)), Refusal::FileLength);
    assert_eq!(refusal(&with(0, 1)), Refusal::FileLength);
    // Another version comes before sides that are cut short, and those before anything else.
    assert_eq!(refusal(&with(4, 0)), Refusal::FileVersion);
    assert_eq!(refusal(&with(4, 2)[..5]), Refusal::FileVersion);
    assert_eq!(refusal(b"# a study\n"), Refusal::FileVersion);
    // Bad sides come before a wrong length.
    assert_eq!(refusal(&with(6, 0)), Refusal::Sides);
    assert_eq!(refusal(&with(6, 0)[..9]), Refusal::Sides);
    assert_eq!(refusal(&with(7, 0x20)[..20]), Refusal::Sides);
    // Good sides, of another grid.
    assert_eq!(refusal(&with(6, 4)), Refusal::FileLength);
    assert_eq!(refusal(&with(8, 3)), Refusal::FileLength);
}

#[test]
fn writing_refuses_sides_and_then_lengths() {
    let refused = |nx, ny, entries| Checkpoint::new(nx, ny, 0, vec![0.0; entries]).unwrap_err();
    for (nx, ny) in [(0, 1), (1, 0), (4097, 1), (4096, 257), (usize::MAX, usize::MAX), (1 << 32, 1 << 32)] {
        assert_eq!(refused(nx, ny, 9), Refusal::Sides, "{nx} by {ny}");
    }
    for entries in [0, 53, 55] {
        assert_eq!(refused(3, 2, entries), Refusal::Length, "{entries} entries");
    }
}

#[test]
fn a_refused_call_writes_to_no_lent_buffer() {
    let good = document::checkpoint(3, 2, 350, &populations(6));
    for (file, entries, number) in [(&good[..], 53, 2), (&good[..], 55, 2), (&good[1..], 54, 13), (&good[..12], 54, 15)] {
        let mut f = vec![2.5; entries];
        assert_eq!(ffi::read_checkpoint(file, &mut f), (number, [0; 3]));
        assert!(f.iter().all(|&entry| entry == 2.5));
    }
    let settings = ffi::Settings { nx: 3, ny: 2, ..ffi::Settings::default() };
    for (settings, entries, bytes, number) in [
        (settings, 54, 444, 2),
        (settings, 54, 446, 2),
        (settings, 53, 445, 2),
        (ffi::Settings { nx: 0, ..settings }, 0, 13, 1),
    ] {
        let mut file = vec![0xa5; bytes];
        assert_eq!(ffi::write_checkpoint(&settings, 350, &vec![0.0; entries], &mut file), number);
        assert!(file.iter().all(|&byte| byte == 0xa5));
    }
}

#[test]
fn a_study_goes_on_from_a_checkpoint_as_if_it_had_never_stopped() {
    let settings = Settings { fx: 1e-5, ..Settings::new(5, 4, 0.1) };
    let mut straight = Study::new(settings).unwrap();
    straight.initialize_with(|x, y| [1.0, y as f64 / 64.0, x as f64 / 128.0]).unwrap();
    straight.run(35).unwrap();
    let file = straight.checkpoint_file(35).unwrap();
    assert_eq!(file, document::checkpoint(5, 4, 35, straight.f()));
    straight.run(25).unwrap();

    let mut resumed = Study::new(settings).unwrap();
    resumed.load(Checkpoint::read(&file).unwrap()).unwrap();
    resumed.run(25).unwrap();
    assert_eq!(bits(resumed.f()), bits(straight.f()));
}

#[test]
fn a_study_takes_no_state_of_other_sides() {
    let mut study = Study::new(Settings::new(3, 2, 0.1)).unwrap();
    study.f_mut().fill(2.5);
    let turned = Checkpoint::new(2, 3, 0, populations(6)).unwrap();
    assert_eq!(study.load(turned), Err(OtherSides { has: (3, 2), given: (2, 3) }));
    assert!(study.f().iter().all(|&entry| entry == 2.5));
}
