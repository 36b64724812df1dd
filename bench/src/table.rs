//! What was measured, as lines of text and as a table in Markdown.

use crate::study::Study;

/// A line: the shortest time of a step that each runner had, in milliseconds, the Rust first.
pub struct Line {
    pub study: Study,
    pub times: Vec<f64>,
}

/// All that was measured.
pub struct Report {
    pub machine: String,
    /// The runners: the Rust, perhaps the Rust for this processor, the levels of the port, and last the copy.
    pub names: Vec<String>,
    /// The place of the port's lowest level among them.
    pub port: usize,
    pub lines: Vec<Line>,
}

/// From this part of a step's time on, the plain copy of the same bytes counts as what limits it.
const MEMORY: f64 = 0.5;

impl Line {
    /// Each runner's part of the Rust's time, without the Rust itself.
    pub fn parts(&self) -> impl Iterator<Item = f64> {
        self.times[1..].iter().map(|time| time / self.times[0])
    }

    /// The part of the highest level's time that the plain copy takes.
    fn copying(&self) -> f64 {
        let [.., best, copy] = self.times[..] else { unreachable!("there are a level and a copy") };
        copy / best
    }

    fn limit(&self) -> &'static str {
        if self.copying() >= MEMORY { "memory" } else { "arithmetic" }
    }

    fn cells(&self) -> Vec<String> {
        let mut cells = vec![self.study.side.to_string(), self.study.density.to_string(), self.study.title()];
        cells.push(format!("{:.3}", self.times[0]));
        cells.extend(self.parts().map(|part| format!("{part:.2}")));
        cells.extend([format!("{:.2}", self.copying()), self.limit().to_string()]);
        cells
    }

    /// The line, as text.
    pub fn text(&self, report: &Report) -> String {
        aligned(&self.cells(), report)
    }
}

impl Report {
    fn titles(&self) -> Vec<String> {
        let titles = ["side", "density", "collision", "the Rust, ms"].into_iter().map(str::to_string);
        let last = ["copy/best", "limited by"].into_iter().map(str::to_string);
        titles.chain(self.names[1..].iter().cloned()).chain(last).collect()
    }

    /// The titles, as text.
    pub fn heading(&self) -> String {
        aligned(&self.titles(), self)
    }

    /// The table, in Markdown.
    pub fn markdown(&self) -> String {
        let row = |cells: Vec<String>| format!("| {} |\n", cells.join(" | "));
        let titles = self.titles();
        let under = (0..titles.len()).map(|at| if at == 2 || at + 1 == titles.len() { "---" } else { "---:" }.to_string());
        let rows = self.lines.iter().map(|line| row(line.cells()));
        [row(titles.clone()), row(under.collect())].into_iter().chain(rows).collect()
    }
}

/// Cells under their titles: numbers to the right, words to the left.
fn aligned(cells: &[String], report: &Report) -> String {
    let titles = report.titles();
    let mut line = String::new();
    for (at, cell) in cells.iter().enumerate() {
        line += &match at {
            2 => format!("  {cell:<10}"),
            _ if at + 1 == cells.len() => format!("  {cell}"),
            _ => format!("  {cell:>width$}", width = titles[at].len()),
        };
    }
    line
}
