//! The reader of study files on made-up texts: each is a study, or has a line that is not as expected.

use brothwagon::StudyFile;

const STUDIES: [&str; 5] = [
    include_str!("../../../studies/cavity.study"),
    include_str!("../../../studies/channel.study"),
    include_str!("../../../studies/post.study"),
    include_str!("../../../studies/shear.study"),
    include_str!("../../../studies/thin.study"),
];

/// What stands in study files, and numbers at the edge of what can.
const WORDS: &str = "sides viscosity steps force collision floor x-min x-max y-min y-max obstacle to start steady bgk mrt trt \
                     magic periodic no-slip moving-wall symmetry velocity pressure uniform shear 0 1 3/16 -0 -1 1e-9 1e400 nan \
                     inf 0/0 1/2/3 / 4096 18446744073709551615 18446744073709551616";

/// What cuts words and lines, and what has no business in a study file.
const MARKS: &str = "#  \n\n\r\t+-./e_\0\u{1b}é∞\u{301}\u{2028}\u{feff}\u{10ffff}";

/// Made-up numbers, the same on every machine: Steele, Lea and Flood's SplitMix64.
struct Made(u64);

impl Made {
    fn below(&mut self, limit: usize) -> usize {
        self.0 = self.0.wrapping_add(0x9e37_79b9_7f4a_7c15);
        let a = (self.0 ^ (self.0 >> 30)).wrapping_mul(0xbf58_476d_1ce4_e5b9);
        let b = (a ^ (a >> 27)).wrapping_mul(0x94d0_49bb_1331_11eb);
        ((b ^ (b >> 31)) % limit as u64) as usize
    }

    fn pick<T>(&mut self, mut from: impl Iterator<Item = T> + Clone) -> T {
        let at = self.below(from.clone().count());
        from.nth(at).unwrap()
    }

    /// A word or a mark.
    fn piece(&mut self) -> String {
        match self.below(2) {
            0 => self.pick(WORDS.split_whitespace()).to_string(),
            _ => self.pick(MARKS.chars()).to_string(),
        }
    }

    /// A heap of pieces, or a study with some changes.
    fn text(&mut self) -> String {
        if self.below(4) == 0 {
            return (0..self.below(60)).map(|_| self.piece() + self.pick(["", " ", "\n"].iter())).collect();
        }
        let mut text: Vec<char> = self.pick(STUDIES.iter()).chars().collect();
        for _ in 0..self.below(6) {
            let from = self.below(text.len() + 1);
            let to = (from + self.below(12)).min(text.len());
            let put = match self.below(3) {
                0 => Vec::new(),
                1 => self.piece().chars().collect(),
                _ => {
                    let copied = self.below(text.len() + 1);
                    text[copied..(copied + self.below(60)).min(text.len())].to_vec()
                }
            };
            text.splice(from..to, put);
        }
        text.into_iter().collect()
    }
}

/// Whether a text is a study. If so, the order of its lines is nothing to it; if not, the line is the first that is wrong, and
/// the message is one short line.
fn is_study(text: &str) -> bool {
    let mut lines: Vec<&str> = text.lines().collect();
    match StudyFile::read(text) {
        Ok(study) => {
            lines.reverse();
            // Shown, since a NaN is not equal to itself.
            assert_eq!(format!("{:?}", StudyFile::read(&lines.join("\n")).unwrap()), format!("{study:?}"), "{text:?}");
            true
        }
        Err(wrong) => {
            let said = wrong.to_string();
            assert!(said.starts_with(&format!("line {}: expected {}, found ", wrong.line, wrong.expected)), "{text:?}: {said}");
            assert!(said.len() < 1000 && !said.contains(char::is_control), "{text:?}: {said:?}");
            let above = StudyFile::read(&lines[..wrong.line - 1].join("\n"));
            assert!(above.map_or_else(|missing| missing.found == "the end", |_| true), "{text:?}: {said}");
            false
        }
    }
}

#[test]
fn any_text_is_a_study_or_has_a_line_that_is_not_as_expected() {
    let mut made = Made(1);
    let studies = (0..3_000).filter(|_| is_study(&made.text())).count();
    assert!((300..2_700).contains(&studies), "{studies} of the texts are studies");
}
