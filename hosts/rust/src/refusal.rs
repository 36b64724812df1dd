use std::error::Error;
use std::fmt;

/// Why a call was refused. A refused call has written nothing, but for [`Refusal::BadSnapshot`].
#[derive(Clone, Copy, Debug, PartialEq, Eq)]
pub enum Refusal {
    /// 1: a side or the cell count is outside its range.
    Sides,
    /// 2: a lent buffer has the wrong length.
    Length,
    /// 3: the relaxation time or a Trt minus rate is outside its range, or the floor is not finite or not above 0.
    /// Readings of velocities and of the kinetic energy test the floor alone.
    Rate,
    /// 4: a force component is not finite.
    Force,
    /// 5: a face carries a number that it cannot have.
    Face,
    /// 6: x, y or direction outside, or the place of any obstacle of a list.
    Place,
    /// 7: the lossless question or the reverse meets a face that does more than copy.
    NotCopying,
    /// 8: reverse on faces that are not lossless.
    Lossy,
    /// 9: a steady run's snapshot has a density or a velocity component that is not finite. The state is as after that many steps.
    BadSnapshot {
        /// Steps taken: 0 if the first snapshot is bad.
        steps: u64,
    },
    /// 10: the tolerance is NaN, or there are more steps than one run may take.
    Run,
    /// 12: a file has fewer than five bytes, so no version.
    FileShort,
    /// 13: a file's version is not 1.
    FileVersion,
    /// 14: a file is cut short before the end of its sides.
    FileSides,
    /// 15: a file's count, or its actual length, is wrong.
    FileLength,
    /// 16: a list of obstacles does not ascend strictly by x + y·nx.
    Order,
    /// 17: the sums of a tally's nine planes do not wrap to its first number.
    Tally,
    /// A number that this crate does not know, of a library that it was not written for.
    Unknown(u32),
}

/// Every refusal with a meaning, in the order of the numbers.
const ALL: [Refusal; 16] = [
    Refusal::Sides,
    Refusal::Length,
    Refusal::Rate,
    Refusal::Force,
    Refusal::Face,
    Refusal::Place,
    Refusal::NotCopying,
    Refusal::Lossy,
    Refusal::BadSnapshot { steps: 0 },
    Refusal::Run,
    Refusal::FileShort,
    Refusal::FileVersion,
    Refusal::FileSides,
    Refusal::FileLength,
    Refusal::Order,
    Refusal::Tally,
];

impl Refusal {
    /// What the library's number says of a call: done, or refused.
    pub(crate) fn of(number: u32) -> Result<(), Refusal> {
        match number {
            0 => Ok(()),
            _ => Err(ALL.into_iter().find(|refusal| refusal.number() == number).unwrap_or(Refusal::Unknown(number))),
        }
    }

    /// The library's number for it.
    pub fn number(self) -> u32 {
        self.row().0
    }

    /// Its number and what that means.
    fn row(self) -> (u32, &'static str) {
        match self {
            Refusal::Sides => (1, "a side or the cell count is outside its range (sides 1 to 4,096, at most 1,048,576 cells)"),
            Refusal::Length => (2, "a lent buffer has the wrong length"),
            Refusal::Rate => (
                3,
                "3·viscosity + 0.5 is not finite or below 0.5, a Trt minus rate is not finite, below 0 or above 2, \
                 or the floor is not finite or not above 0",
            ),
            Refusal::Force => (4, "a force component is not finite"),
            Refusal::Face => {
                (5, "a face number is not finite, a Pressure density is not above 0, or a Velocity face has 1 - un equal to 0")
            }
            Refusal::Place => (6, "x, y or direction outside, or the place of any obstacle of a list"),
            Refusal::NotCopying => (7, "the lossless question or the reverse meets MovingWall, Velocity or Pressure"),
            Refusal::Lossy => (8, "reverse on faces that are not lossless"),
            Refusal::BadSnapshot { .. } => (9, "a snapshot has a density or a velocity component that is not finite"),
            Refusal::Run => (10, "the tolerance is NaN, or there are more than 1,000,000 steps"),
            Refusal::FileShort => (12, "the file has fewer than five bytes, so no version"),
            Refusal::FileVersion => (13, "the file's version is not 1"),
            Refusal::FileSides => (14, "the file is cut short before the end of its sides"),
            Refusal::FileLength => (15, "the file's count, or its actual length, is wrong"),
            Refusal::Order => (16, "the list of obstacles does not ascend strictly by x + y·nx"),
            Refusal::Tally => (17, "the sums of a tally's nine planes do not wrap to its first number"),
            Refusal::Unknown(number) => {
                (number, "a number that this crate does not know; the library is not the one it was written for")
            }
        }
    }
}

impl fmt::Display for Refusal {
    fn fmt(&self, out: &mut fmt::Formatter) -> fmt::Result {
        let (number, meaning) = self.row();
        write!(out, "refused with number {number}: {meaning}")?;
        match self {
            Refusal::BadSnapshot { steps } => write!(out, ", after {steps} steps"),
            _ => Ok(()),
        }
    }
}

impl Error for Refusal {}

#[cfg(test)]
mod tests {
    use super::*;

    #[test]
    fn each_number_has_its_refusal() {
        let numbers: Vec<u32> = (1..=10).chain(12..=17).collect();
        assert_eq!(ALL.map(Refusal::number)[..], numbers);
        for refusal in ALL {
            assert_eq!(Refusal::of(refusal.number()), Err(refusal));
        }
        assert_eq!(Refusal::of(0), Ok(()));
        assert_eq!(Refusal::of(18), Err(Refusal::Unknown(18)));
        assert_eq!(Refusal::of(u32::MAX).unwrap_err().number(), u32::MAX);
    }

    /// The words that say what a number means, without those in which a header and a message differ.
    fn meaning(text: &str) -> Vec<&str> {
        let words =
            text.split(|letter: char| !letter.is_alphanumeric()).map(|word| if word == "nu" { "viscosity" } else { word });
        words.filter(|word| !["", "a", "the", "or", "minus", "steady", "run", "checkpoint"].contains(word)).collect()
    }

    /// What the header's table says of each number; a row may go on in the next line.
    fn rows() -> Vec<(u32, String)> {
        let header = include_str!("../../../include/brothwagon.h");
        let (table, _) = header.split_once(" *    0  done\n").unwrap().1.split_once("\n *\n").unwrap();
        let row = |row: &str| {
            let (number, said) = row.trim_start_matches([' ', '*']).split_once("  ").unwrap();
            (number.parse().unwrap(), said.to_string())
        };
        table.replace("\n *       ", " ").lines().map(row).collect()
    }

    #[test]
    fn a_number_means_what_the_header_says() {
        let rows = rows();
        assert_eq!(rows.len(), ALL.len());
        for (refusal, (number, said)) in ALL.into_iter().zip(&rows) {
            assert_eq!((refusal.number(), meaning(refusal.row().1)), (*number, meaning(said)));
        }
    }
}
