use crate::{Refusal, Tally, ffi};

/// A state, its sides and its step number: what a checkpoint file holds. The populations always fit the sides.
///
/// A dump of populations becomes a file that says how to read it, and comes back with the same bits, NaN included:
///
/// ```
/// use brothwagon::{Checkpoint, Refusal};
///
/// let mut dump = vec![0.25; 9 * 3 * 2];
/// dump[7] = f64::from_bits(0x7ff0_dead_beef_0001);
/// let file = Checkpoint::new(3, 2, 350, dump.clone())?.write()?;
///
/// let read = Checkpoint::read(&file)?;
/// assert_eq!((read.sides(), read.step()), ((3, 2), 350));
/// assert!(read.f().iter().map(|entry| entry.to_bits()).eq(dump.iter().map(|entry| entry.to_bits())));
/// # Ok::<(), Refusal>(())
/// ```
///
/// [`Study::load`](crate::Study::load) takes it where the sides are the study's, so no state is run under wrong ones:
///
/// ```
/// use brothwagon::{Checkpoint, Settings, Study};
///
/// let mut study = Study::new(Settings::new(3, 2, 0.1))?;
/// study.initialize_uniform(1.0, 0.0, 0.0)?;
/// study.run(350)?;
/// let file = study.checkpoint_file(350)?;
///
/// study.load(Checkpoint::read(&file)?)?;
/// let mut turned = Study::new(Settings::new(2, 3, 0.1))?;
/// let other = turned.load(Checkpoint::read(&file)?).unwrap_err();
/// assert_eq!(other.to_string(), "the study is 2 by 3 and stays so; what it is given is 3 by 2");
/// # Ok::<(), Box<dyn std::error::Error>>(())
/// ```
#[derive(Clone, Debug)]
pub struct Checkpoint {
    nx: usize,
    ny: usize,
    step: u32,
    f: Vec<f64>,
}

impl Checkpoint {
    /// The checkpoint of these populations; refused where the sides are, or where the populations do not fit them.
    pub fn new(nx: usize, ny: usize, step: u32, f: Vec<f64>) -> Result<Checkpoint, Refusal> {
        let checkpoint = Checkpoint { nx, ny, step, f };
        // The library judges sides and length: to say where direction 0 stands, it looks at nothing else.
        let (number, _) = ffi::plane(&checkpoint.words(), &checkpoint.f, 0);
        Refusal::of(number).map(|()| checkpoint)
    }

    /// Reads the bytes of a checkpoint file.
    pub fn read(file: &[u8]) -> Result<Checkpoint, Refusal> {
        let (number, [nx, ny, _]) = ffi::checkpoint_sides(file);
        Refusal::of(number)?;
        let (nx, ny) = (nx as usize, ny as usize);
        let mut f = vec![0.0; 9 * nx * ny];
        let (number, [_, _, step]) = ffi::read_checkpoint(file, &mut f);
        // The file has four bytes for the step number.
        Refusal::of(number).map(|()| Checkpoint { nx, ny, step: step as u32, f })
    }

    /// The bytes of the checkpoint file.
    pub fn write(&self) -> Result<Vec<u8>, Refusal> {
        file_of(&self.words(), self.step, &self.f)
    }

    /// The tally of the state.
    pub fn tally(&self) -> Result<Tally, Refusal> {
        Tally::of(&self.words(), &self.f)
    }

    /// Writes one entry, given as its pattern, and moves the tally along: the state's own becomes that of the new state, and another
    /// stays as far from it as it was.
    pub fn write_entry(
        &mut self,
        x: usize,
        y: usize,
        direction: usize,
        pattern: u64,
        tally: &mut Tally,
    ) -> Result<(), Refusal> {
        Refusal::of(ffi::write_entry(&self.words(), x, y, direction, pattern, &mut self.f, &mut tally.0))
    }

    /// The sides, as settings that say nothing else.
    fn words(&self) -> ffi::Settings {
        ffi::Settings { nx: self.nx as u64, ny: self.ny as u64, ..ffi::Settings::default() }
    }

    /// nx and ny.
    pub fn sides(&self) -> (usize, usize) {
        (self.nx, self.ny)
    }

    /// The step number.
    pub fn step(&self) -> u32 {
        self.step
    }

    /// The populations.
    pub fn f(&self) -> &[f64] {
        &self.f
    }

    /// The populations, handed over.
    pub fn into_f(self) -> Vec<f64> {
        self.f
    }
}

/// The checkpoint file of these populations under the settings' sides.
pub(crate) fn file_of(settings: &ffi::Settings, step: u32, f: &[f64]) -> Result<Vec<u8>, Refusal> {
    // 13 bytes stand before the entries. By f, not by the sides, the length cannot overflow, whatever the sides are.
    let mut file = vec![0; 13 + size_of_val(f)];
    Refusal::of(ffi::write_checkpoint(settings, step, f, &mut file)).map(|()| file)
}
