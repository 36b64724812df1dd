use crate::{Refusal, ffi};

/// The tally of a state: the sum of all its entries' 64-bit patterns, wrapping at 64 bits, and nine more, one for each direction's
/// plane, which wrap to the first. It is worked out of a state or read from a file, so no tally is at hand that does not wrap.
///
/// It is stored beside a checkpoint, as a file of its own, and tells whether the state is still the one that was stored:
///
/// ```
/// use brothwagon::{Checkpoint, Refusal, Tally};
///
/// let stored = Checkpoint::new(3, 2, 350, vec![0.25; 9 * 3 * 2])?;
/// let file = stored.tally()?.write()?;
///
/// let mut f = stored.into_f();
/// f[7] = -0.25; // An entry of direction 1.
/// let damaged = Checkpoint::new(3, 2, 350, f)?;
/// assert_eq!(Tally::read(&file)?.differing_planes(&damaged.tally()?), [1]);
/// # Ok::<(), Refusal>(())
/// ```
///
/// [`Checkpoint::write_entry`](crate::Checkpoint::write_entry) changes an entry and the tally with it, and does not read the rest of
/// the state:
///
/// ```
/// use brothwagon::{Checkpoint, Refusal};
///
/// let mut checkpoint = Checkpoint::new(3, 2, 350, vec![0.25; 9 * 3 * 2])?;
/// let mut tally = checkpoint.tally()?;
/// checkpoint.write_entry(2, 1, 8, 0.5f64.to_bits(), &mut tally)?;
/// assert_eq!(tally, checkpoint.tally()?);
/// # Ok::<(), Refusal>(())
/// ```
#[derive(Clone, Copy, Debug, PartialEq, Eq)]
pub struct Tally(pub(crate) [u64; 10]);

impl Tally {
    /// The bytes of a tally file.
    pub const BYTES: usize = 85;

    /// The tally of these populations under the settings' sides.
    pub(crate) fn of(settings: &ffi::Settings, f: &[f64]) -> Result<Tally, Refusal> {
        let (number, tally) = ffi::tally(settings, f);
        Refusal::of(number).map(|()| Tally(tally))
    }

    /// Reads the bytes of a tally file.
    pub fn read(file: &[u8]) -> Result<Tally, Refusal> {
        let mut tally = [0; 10];
        Refusal::of(ffi::read_tally(file, &mut tally)).map(|()| Tally(tally))
    }

    /// The bytes of the tally file.
    pub fn write(&self) -> Result<Vec<u8>, Refusal> {
        let mut file = vec![0; Tally::BYTES];
        Refusal::of(ffi::write_tally(&self.0, &mut file)).map(|()| file)
    }

    /// The sum over all entries.
    pub fn all(&self) -> u64 {
        self.0[0]
    }

    /// The sums over each direction's entries.
    pub fn planes(&self) -> &[u64] {
        &self.0[1..]
    }

    /// The directions whose sums are others than in that tally; there is one at least unless the two tallies are equal.
    pub fn differing_planes(&self, other: &Tally) -> Vec<usize> {
        (0..9).filter(|&direction| self.planes()[direction] != other.planes()[direction]).collect()
    }
}
