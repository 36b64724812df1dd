//! The obstacles of a study file: the blocks that its lines name, and the cells that these are.

use crate::Obstacle;
use crate::study::are_sides;

/// What a line may say.
pub(crate) const OBSTACLE: &str = "obstacle X Y or obstacle X Y to X Y, in whole numbers";

/// A block of cells, from its lowest x and y to its highest.
pub(crate) struct Block {
    /// The line that names it.
    line: usize,
    low: Obstacle,
    high: Obstacle,
}

impl Block {
    /// The block that the words of a line name: one cell, or any two opposite corners.
    pub(crate) fn read(line: usize, words: &[&str]) -> Option<Block> {
        let (a, b) = match words {
            [x, y] => (cell(x, y)?, cell(x, y)?),
            [x, y, "to", other_x, other_y] => (cell(x, y)?, cell(other_x, other_y)?),
            _ => return None,
        };
        let low = Obstacle { x: a.x.min(b.x), y: a.y.min(b.y) };
        let high = Obstacle { x: a.x.max(b.x), y: a.y.max(b.y) };
        Some(Block { line, low, high })
    }

    /// Its cells, row by row.
    fn cells(&self) -> impl Iterator<Item = Obstacle> {
        let Block { low, high, .. } = *self;
        (low.y..=high.y).flat_map(move |y| (low.x..=high.x).map(move |x| Obstacle { x, y }))
    }

    /// Puts its line down at each of its cells, or says what should have stood in the line.
    fn fill(&self, lines: &mut [Option<usize>], nx: usize, ny: usize) -> Result<(), String> {
        // Before the first cell: a block that is not on the grid may have more of them than anyone could count.
        if self.high.x >= nx || self.high.y >= ny {
            return Err(format!("an obstacle on the grid, x from 0 to {} and y from 0 to {}", nx - 1, ny - 1));
        }
        for Obstacle { x, y } in self.cells() {
            if let Some(above) = lines[x + y * nx].replace(self.line) {
                return Err(format!("cells that no line above names (line {above} has x {x}, y {y})"));
            }
        }
        Ok(())
    }
}

fn cell(x: &str, y: &str) -> Option<Obstacle> {
    Some(Obstacle { x: x.parse().ok()?, y: y.parse().ok()? })
}

/// The cells of the blocks, ascending by x + y·nx; or the first line that is wrong, and what is expected there.
pub(crate) fn cells(blocks: &[Block], nx: usize, ny: usize) -> Result<Vec<Obstacle>, (usize, String)> {
    // Sides that no grid has are the library's to refuse, and no place is on such a grid or off it.
    if blocks.is_empty() || !are_sides(nx, ny) {
        return Ok(Vec::new());
    }
    // Of each cell, the line that names it.
    let mut lines = vec![None; nx * ny];
    for block in blocks {
        block.fill(&mut lines, nx, ny).map_err(|expected| (block.line, expected))?;
    }
    let filled = (0..nx * ny).filter(|&cell| lines[cell].is_some());
    Ok(filled.map(|cell| Obstacle { x: cell % nx, y: cell / nx }).collect())
}

#[cfg(test)]
mod tests {
    use crate::{Obstacle, Refusal, StudyFile};

    /// A study on a grid of 4 by 3, with lines of obstacles from line 4 on.
    fn study(obstacles: &str) -> String {
        format!("sides 4 3\nviscosity 0.1\nsteps 5\n{obstacles}")
    }

    fn cells(text: &str) -> Vec<(usize, usize)> {
        StudyFile::read(text).unwrap().obstacles.iter().map(|&Obstacle { x, y }| (x, y)).collect()
    }

    fn wrong(text: &str) -> String {
        StudyFile::read(text).unwrap_err().to_string()
    }

    #[test]
    fn cells_and_blocks_come_row_by_row() {
        assert_eq!(cells(&study("")), []);
        assert_eq!(cells(&study("obstacle 3 2")), [(3, 2)]);
        assert_eq!(cells(&study("obstacle 3 2\nobstacle 0 1 # a comment\n\nobstacle 3 0")), [(3, 0), (0, 1), (3, 2)]);
        assert_eq!(cells(&study("obstacle 1 1 to 1 1")), [(1, 1)]);
        let two = study("obstacle 2 1 to 3 2\nobstacle 0 0 to 0 2");
        assert_eq!(cells(&two), [(0, 0), (0, 1), (2, 1), (3, 1), (0, 2), (2, 2), (3, 2)]);
        let all: Vec<(usize, usize)> = (0..12).map(|cell| (cell % 4, cell / 4)).collect();
        assert_eq!(cells(&study("obstacle 0 0 to 3 2")), all);
    }

    #[test]
    fn a_block_may_be_given_by_any_two_opposite_corners() {
        for line in ["1 0 to 2 1", "2 1 to 1 0", "1 1 to 2 0", "2 0 to 1 1"] {
            assert_eq!(cells(&study(&format!("obstacle {line}"))), [(1, 0), (2, 0), (1, 1), (2, 1)], "{line}");
        }
    }

    #[test]
    fn a_line_that_names_no_block_is_wrong() {
        let forms = "obstacle X Y or obstacle X Y to X Y, in whole numbers";
        let values =
            ["", " 1", " 1 1 1", " 1 1 to", " 1 1 to 2", " 1 1 2 2", " 1 1 to 2 2 2", " 1 1 till 2 2", " to 1 1", " -1 0"];
        let numbers = [" 1.0 1", " 1 2/2", " one 1", " 18446744073709551616 0", " 0 0 to 0 1e3"];
        for values in values.into_iter().chain(numbers) {
            let expected = format!("line 4: expected {forms}, found `obstacle{values}`");
            assert_eq!(wrong(&study(&format!("obstacle{values}"))), expected);
        }
    }

    #[test]
    fn an_obstacle_outside_the_grid_is_wrong_wherever_the_sides_stand() {
        let huge = "0 0 to 18446744073709551615 18446744073709551615";
        for values in ["4 0", "0 3", "0 0 to 4 2", "0 0 to 3 3", "4 2 to 0 0", "3 3 to 0 0", huge] {
            let inside = "an obstacle on the grid, x from 0 to 3 and y from 0 to 2";
            let found = format!("expected {inside}, found `obstacle {values}`");
            assert_eq!(wrong(&study(&format!("obstacle 1 1\nobstacle {values}"))), format!("line 5: {found}"));
            assert_eq!(wrong(&format!("obstacle {values}\nsides 4 3\nsteps 5\nviscosity 0.1")), format!("line 1: {found}"));
        }
    }

    #[test]
    fn a_cell_that_is_named_again_is_wrong_and_has_its_first_line_named() {
        let again = |obstacles: &str| wrong(&study(obstacles));
        let one = "line 6: expected cells that no line above names (line 4 has x 1, y 1), found `obstacle 1 1`";
        assert_eq!(again("obstacle 1 1\nobstacle 3 0\nobstacle 1 1"), one);
        let blocks = "line 5: expected cells that no line above names (line 4 has x 2, y 1), found `obstacle 2 1 to 3 2`";
        assert_eq!(again("obstacle 0 0 to 2 2\nobstacle 2 1 to 3 2 # beside"), blocks);
        let second = "line 6: expected cells that no line above names (line 5 has x 3, y 0), found `obstacle 3 2 to 3 0`";
        assert_eq!(again("obstacle 0 0 to 2 2\nobstacle 3 0\nobstacle 3 2 to 3 0"), second);
    }

    #[test]
    fn the_first_wrong_line_is_told() {
        // Outside, again, not understood, and a line that is missing.
        let line = |text: &str| StudyFile::read(text).unwrap_err().line;
        assert_eq!(line("obstacle 1 1\nobstacle 4 0\nsides 4 3\nobstacle 1 1\nwalls"), 2);
        assert_eq!(line("obstacle 1 1\nobstacle 1 1\nobstacle 4 0\nsides 4 3\nwalls"), 2);
        assert_eq!(line("obstacle 1 1\nsides 4 3\nwalls\nobstacle 4 0\nobstacle 1 1"), 3);
        // No obstacle is held to sides that stand below a wrong line, least of all to a second try at them.
        assert_eq!(line("obstacle 4 0\nwalls\nsides 4 3"), 2);
        assert_eq!(line("obstacle 4 0\nsides 4\nsides 4 3"), 2);
        assert_eq!(line("obstacle 1 1\nsides 4 3\nobstacle 1 1"), 3);
        assert_eq!(line("obstacle 4 0\nobstacle 4 0\nviscosity 0.1\nsteps 5"), 5);
    }

    #[test]
    fn no_obstacle_is_looked_at_where_no_grid_has_the_sides() {
        for sides in ["0 3", "4097 1", "4096 257", "18446744073709551615 18446744073709551615"] {
            let text = format!("sides {sides}\nviscosity 0.1\nsteps 5\nobstacle 0 0 to 5000 5000\nobstacle 0 0");
            let study = StudyFile::read(&text).unwrap();
            assert_eq!((study.obstacles.len(), study.started().err()), (0, Some(Refusal::Sides)), "{sides}");
        }
        let largest = "sides 4096 256\nviscosity 0.1\nsteps 5\nobstacle 4095 255 to 0 0";
        assert_eq!(StudyFile::read(largest).unwrap().obstacles.len(), 1_048_576);
    }
}
