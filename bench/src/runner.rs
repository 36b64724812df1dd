//! The workers, as the one who times them sees them.

use crate::study::Study;
use source::levels::VARIABLE;
use std::io::{self, BufRead, BufReader, Read, Write};
use std::path::Path;
use std::process::{Child, ChildStdin, ChildStdout, Command, Stdio};
use std::time::Duration;

/// A worker.
pub struct Runner {
    /// As the table names it.
    pub name: String,
    /// Whether it takes the steps, and so must end like the others that do; a copy does not.
    pub steps: bool,
    child: Child,
    to: ChildStdin,
    from: BufReader<ChildStdout>,
}

impl Runner {
    /// Starts the program at `path` as a worker: `role` is rust, port, copy, checkpoint, tally or obstacles, `level` that of the port.
    pub fn start(path: &Path, name: &str, role: &str, level: Option<&str>) -> io::Result<Runner> {
        let mut command = Command::new(path);
        command.args(["--worker", role]).stdin(Stdio::piped()).stdout(Stdio::piped());
        command.env_remove(VARIABLE).envs(level.map(|level| (VARIABLE, level)));
        let mut child = command.spawn()?;
        let (to, from) = (child.stdin.take(), child.stdout.take());
        let (to, from) = (to.expect("it is piped"), BufReader::with_capacity(1 << 16, from.expect("it is piped")));
        Ok(Runner { name: name.to_string(), steps: role != "copy", child, to, from })
    }

    /// What it answers to a line.
    pub fn ask(&mut self, line: &str) -> io::Result<String> {
        writeln!(self.to, "{line}")?;
        let mut answer = String::new();
        self.from.read_line(&mut answer)?;
        Ok(answer.trim_end().to_string())
    }

    /// Puts it at the start of a study.
    pub fn begin(&mut self, study: &Study) -> io::Result<()> {
        match self.ask(&format!("study {}", study.words()))?.as_str() {
            "ready" => Ok(()),
            _ => Err(self.stopped()),
        }
    }

    /// How long it took for so many steps.
    pub fn turn(&mut self, steps: u64) -> io::Result<Duration> {
        self.timed(&format!("turn {steps}"))
    }

    /// How long it took for what a line asks.
    pub fn timed(&mut self, line: &str) -> io::Result<Duration> {
        self.ask(line)?.parse().map(Duration::from_nanos).map_err(|_| self.stopped())
    }

    /// Hands each stretch of the bytes of its two buffers to `see`.
    pub fn end(&mut self, study: &Study, mut see: impl FnMut(&[u8])) -> io::Result<()> {
        writeln!(self.to, "end")?;
        let mut left = 2 * 9 * 8 * study.cells();
        let mut bytes = vec![0; 1 << 16];
        while left > 0 {
            let stretch = &mut bytes[..left.min(1 << 16)];
            self.from.read_exact(stretch)?;
            see(stretch);
            left -= stretch.len();
        }
        Ok(())
    }

    fn stopped(&self) -> io::Error {
        io::Error::other(format!("the worker for {} has stopped", self.name))
    }
}

impl Drop for Runner {
    fn drop(&mut self) {
        // A worker that waits for a line has nothing to lose.
        let _ = self.child.kill();
        let _ = self.child.wait();
    }
}

/// Whether all that take steps end alike, bit for bit; if not, who ends otherwise than the first.
pub fn ends_apart(runners: &mut [Runner], study: &Study) -> io::Result<Option<String>> {
    let mut first: Vec<u8> = Vec::with_capacity(2 * 9 * 8 * study.cells());
    for (place, runner) in runners.iter_mut().filter(|runner| runner.steps).enumerate() {
        let (mut at, mut alike) = (0, true);
        runner.end(study, |stretch| {
            if place == 0 {
                first.extend_from_slice(stretch);
            } else {
                alike &= first[at..at + stretch.len()] == *stretch;
                at += stretch.len();
            }
        })?;
        if !alike {
            return Ok(Some(runner.name.clone()));
        }
    }
    Ok(None)
}
