//! What is timed on each level of the port alone: in a process of its own for each, in turns, and shown as a table.

use crate::runner::Runner;
use source::levels::{as_asked, levels};
use std::env;
use std::io::{self, BufRead, Write, stdin, stdout};
use std::time::{Duration, Instant};

/// A level, and its shortest times, in milliseconds.
pub struct Line<const N: usize> {
    pub level: String,
    pub times: [f64; N],
}

/// Times what each of these words has the workers of a role do, in so many turns; fails where one does not end as it should.
pub fn times<const N: usize>(role: &str, words: [&str; N], turns: u32) -> io::Result<Vec<Line<N>>> {
    let this = env::current_exe()?;
    let start = |level: &&str| Runner::start(&this, level, role, Some(level));
    let mut runners = levels().iter().map(start).collect::<io::Result<Vec<Runner>>>()?;
    let mut best = vec![[Duration::MAX; N]; runners.len()];
    // The first turn warms up.
    for turn in 0..=turns {
        for (runner, best) in runners.iter_mut().zip(&mut best) {
            for (word, best) in words.iter().zip(best) {
                let time = runner.timed(word)?;
                *best = if turn == 0 { *best } else { time.min(*best) };
            }
        }
    }
    for runner in &mut runners {
        if runner.ask("end")? != ALIKE {
            return Err(io::Error::other(format!("{role} on {} does not end as it should", runner.name)));
        }
    }
    let line = |(runner, best): (&Runner, [Duration; N])| Line {
        level: runner.name.clone(),
        times: best.map(|time| time.as_secs_f64() * 1e3),
    };
    Ok(runners.iter().zip(best).map(line).collect())
}

/// Rows of cells, the titles first, as text.
pub fn text<const N: usize>(rows: &[[String; N]]) -> String {
    let widths = rows[0].each_ref().map(String::len);
    let row = |cells: &[String; N]| {
        let [first, others @ ..] = &cells[..] else { unreachable!("a table has columns") };
        let others = others.iter().zip(&widths[1..]).map(|(cell, width)| format!("  {cell:>width$}"));
        format!("  {first:<width$}{}\n", others.collect::<String>(), width = widths[0])
    };
    rows.iter().map(row).collect()
}

/// The same, in Markdown.
pub fn markdown<const N: usize>(rows: &[[String; N]]) -> String {
    let under: [String; N] = std::array::from_fn(|at| if at == 0 { "---" } else { "---:" }.to_string());
    let rows = rows[..1].iter().chain([&under]).chain(&rows[1..]);
    rows.map(|cells| format!("| {} |\n", cells.join(" | "))).collect()
}

/// What a worker says whose end is as it should be.
const ALIKE: &str = "alike";

/// A worker's part.
pub trait Work {
    /// Does what a word says; answers whether it is one that is timed.
    fn act(&mut self, word: &str) -> bool;

    /// Whether what was done is as it should be.
    fn alike(&mut self) -> bool;
}

/// Does as it is told until there is nothing more to read: one of the words that are timed, answered by the nanoseconds that
/// it took, or `end`.
pub fn work(mut worker: impl Work) -> io::Result<()> {
    assert!(as_asked(), "the library runs on another level");
    for line in stdin().lock().lines() {
        let line = line?;
        if line == "end" {
            writeln!(stdout(), "{}", if worker.alike() { ALIKE } else { "apart" })?;
            continue;
        }
        let began = Instant::now();
        if !worker.act(&line) {
            return Err(io::Error::other(format!("`{line}` is not understood")));
        }
        writeln!(stdout(), "{}", began.elapsed().as_nanos())?;
    }
    Ok(())
}
