//! What was measured, as a picture: a row for each line, a mark for each runner at its part of the Rust's time.

use crate::table::{Line, Report};
use std::fmt::Write;

const ROW: f64 = 17.0;
/// Above the rows of a side, for its name.
const ABOVE: f64 = 24.0;
const TOP: f64 = 92.0;
const LABELS: f64 = 96.0;
const PANEL: f64 = 400.0;
const GAP: f64 = 28.0;
const MARGIN: f64 = 24.0;

/// The levels of the port, from the lowest: the darker the faster.
const COLOURS: [&str; 3] = ["#8cc5e3", "#2f86c4", "#0b3c6f"];
const NATIVE: &str = "#c2571a";
const COPY: &str = "#e4e4df";

/// The style of the highest level's figures, to the right of each panel.
const BEST: &str = "text-anchor=\"end\" fill=\"#0b3c6f\"";

/// The picture, as the text of an SVG file.
pub fn picture(report: &Report) -> String {
    let mut densities: Vec<u32> = report.lines.iter().map(|line| line.study.density).collect();
    densities.sort();
    densities.dedup();
    let most = report.lines.iter().flat_map(Line::parts).fold(1.15, f64::max);
    let panels: Vec<Vec<&Line>> =
        densities.iter().map(|&density| report.lines.iter().filter(|line| line.study.density == density).collect()).collect();
    let height = panels.iter().map(|lines| bottom(lines)).fold(0.0, f64::max) + 44.0;
    let width = 2.0 * MARGIN + LABELS + panels.len() as f64 * (PANEL + GAP);

    let mut svg = format!(
        "<svg xmlns=\"http://www.w3.org/2000/svg\" viewBox=\"0 0 {width} {height}\" width=\"{width}\" height=\"{height}\" \
         font-family=\"Helvetica, Arial, sans-serif\" font-size=\"12\" fill=\"#222222\">\n\
         <rect width=\"{width}\" height=\"{height}\" fill=\"#ffffff\"/>\n"
    );
    text(&mut svg, MARGIN, 26.0, "font-size=\"16\" font-weight=\"bold\"", "The time of a step, as a part of the Rust's");
    text(&mut svg, MARGIN, 44.0, "fill=\"#555555\"", &report.machine);
    legend(&mut svg, report);
    for (at, lines) in panels.iter().enumerate() {
        let left = MARGIN + LABELS + at as f64 * (PANEL + GAP);
        let panel = Panel { left, scale: (PANEL - 40.0) / most, most, named: at == 0, bottom: bottom(lines) };
        panel.draw(&mut svg, report, lines, densities[at]);
    }
    svg + "</svg>\n"
}

/// Where the rows of these lines end.
fn bottom(lines: &[&Line]) -> f64 {
    let sides = lines.chunk_by(|a, b| a.study.side == b.study.side).count();
    TOP + 16.0 + lines.len() as f64 * ROW + sides as f64 * ABOVE
}

fn text(svg: &mut String, x: f64, y: f64, style: &str, said: &str) {
    let said = said.replace('&', "&amp;").replace('<', "&lt;");
    let _ = writeln!(svg, "<text x=\"{x:.1}\" y=\"{y:.1}\" {style}>{said}</text>");
}

/// A level's mark: a disc.
fn disc(svg: &mut String, x: f64, y: f64, colour: &str) {
    let _ = writeln!(svg, "<circle cx=\"{x:.1}\" cy=\"{y:.1}\" r=\"4.5\" fill=\"{colour}\"/>");
}

/// The mark of the Rust for this processor: a ring.
fn ring(svg: &mut String, x: f64, y: f64) {
    let _ =
        writeln!(svg, "<circle cx=\"{x:.1}\" cy=\"{y:.1}\" r=\"4\" fill=\"none\" stroke=\"{NATIVE}\" stroke-width=\"1.6\"/>");
}

fn bar(svg: &mut String, x: f64, y: f64, width: f64, colour: &str) {
    let _ = writeln!(svg, "<rect x=\"{x:.1}\" y=\"{:.1}\" width=\"{width:.1}\" height=\"11\" fill=\"{colour}\"/>", y - 5.5);
}

fn upright(svg: &mut String, x: f64, from: f64, to: f64, colour: &str) {
    let _ = writeln!(svg, "<line x1=\"{x:.1}\" y1=\"{from:.1}\" x2=\"{x:.1}\" y2=\"{to:.1}\" stroke=\"{colour}\"/>");
}

fn colour(report: &Report, runner: usize) -> &'static str {
    COLOURS[(runner - report.port).min(COLOURS.len() - 1)]
}

fn legend(svg: &mut String, report: &Report) {
    let (mut x, y) = (MARGIN, 66.0);
    for (runner, name) in report.names.iter().enumerate() {
        let last = runner + 1 == report.names.len();
        let said = match runner {
            0 => "the Rust".to_string(),
            _ if last => "a plain copy of the same bytes".to_string(),
            _ if runner < report.port => "the Rust, built for this processor".to_string(),
            _ => format!("the port, {name}"),
        };
        match runner {
            0 => upright(svg, x + 5.0, y - 7.0, y + 7.0, NATIVE),
            _ if last => bar(svg, x - 4.0, y, 16.0, COPY),
            _ if runner < report.port => ring(svg, x + 5.0, y),
            _ => disc(svg, x + 5.0, y, colour(report, runner)),
        }
        text(svg, x + 16.0, y + 4.0, "", &said);
        x += 34.0 + 6.1 * said.len() as f64;
    }
}

/// The rows of one density.
struct Panel {
    left: f64,
    /// How wide a part of 1 is.
    scale: f64,
    most: f64,
    /// Whether the rows' names stand to the left.
    named: bool,
    bottom: f64,
}

impl Panel {
    fn draw(&self, svg: &mut String, report: &Report, lines: &[&Line], density: u32) {
        let title = format!("density {density}");
        text(svg, self.left, TOP + 4.0, "font-weight=\"bold\"", &title);
        text(svg, self.left + PANEL - 4.0, TOP + 4.0, BEST, &report.names[report.names.len() - 2]);
        let top = TOP + 12.0;
        for tenths in (0..=(self.most * 10.0) as u32).step_by(2) {
            let x = self.left + self.scale * f64::from(tenths) / 10.0;
            upright(svg, x, top, self.bottom, if tenths == 10 { NATIVE } else { "#dddddd" });
            let style = "text-anchor=\"middle\" fill=\"#555555\"";
            text(svg, x, self.bottom + 16.0, style, &format!("{:.1}", f64::from(tenths) / 10.0));
        }
        let mut y = top;
        for side in lines.chunk_by(|a, b| a.study.side == b.study.side) {
            y += ABOVE;
            if self.named {
                let said = format!("{0} × {0}", side[0].study.side);
                text(svg, MARGIN, y - 8.0, "font-weight=\"bold\"", &said);
            }
            for line in side {
                y += ROW;
                self.row(svg, report, line, y - ROW / 2.0);
            }
        }
    }

    fn row(&self, svg: &mut String, report: &Report, line: &Line, y: f64) {
        if self.named {
            text(svg, MARGIN + 8.0, y + 4.0, "", &line.study.title());
        }
        let parts: Vec<f64> = line.parts().collect();
        let x = |part: f64| self.left + self.scale * part;
        let [levels @ .., copy] = &parts[..] else { unreachable!("there is a copy") };
        bar(svg, self.left, y, self.scale * copy, COPY);
        for (part, runner) in levels.iter().zip(1..) {
            if runner < report.port {
                ring(svg, x(*part), y);
            } else {
                disc(svg, x(*part), y, colour(report, runner));
            }
        }
        let best = levels[levels.len() - 1];
        text(svg, self.left + PANEL - 4.0, y + 4.0, BEST, &format!("{best:.2}"));
    }
}
