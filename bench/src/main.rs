//! Times the port, on each of its levels, against the Rust that it carries over, and checks that all end alike.

mod by_level;
mod checkpoint;
mod obstacles;
mod picture;
mod runner;
mod study;
mod table;
mod tally;
mod worker;

use checkpoint::Checkpoint;
use obstacles::Obstacles;
use runner::{Runner, ends_apart};
use source::levels::levels;
use std::env;
use std::fs;
use std::io;
use std::path::PathBuf;
use std::process::ExitCode;
use std::thread::available_parallelism;
use std::time::Duration;
use study::{KINDS, Study};
use table::{Line, Report};
use tally::Tallied;

const HELP: &str = "\
bench/run [SOURCE] [--quick] [--seconds S] [--sides N,..] [--kinds KIND,..] [--densities N,..] [--machine NAME] [--svg FILE]
          [--page FILE]
bench/run [SOURCE] --checkpoints|--tallies|--obstacles.. [--quick] [--machine NAME]

Times the port against the Rust of SOURCE (../shared/docs/src by default), built for release: closed boxes of 240, 256, 512
and 1024 cells a side, from a start at density 1 and one at density 10, with Trt (magic number 3/16), Bgk and Mrt, each
without and with a force. Side by side stand the Rust, the Rust built for this very processor (-C target-cpu=native), the
port on every level that the machine has, and a plain copy: of the populations to the other buffer and back, the bytes that
a step at least reads and writes.

Each is a process of its own. They take the same steps in twenty turns, one after the other in each turn, and the shortest
turn of each counts. The Rust's turns take S seconds together (4; --quick: three turns, 0.3). All must end alike, bit for
bit. The table has the milliseconds of a step of the Rust, and for the others the part of the Rust's time that they take;
then the part of the highest level's time that the copy takes: from a half on, memory is what limits that line, below it the
arithmetic.

Then, or alone (--checkpoints), come checkpoint files of 1024 by 1024 cells: on each level, the milliseconds of a plain copy
of a file's bytes, and how many times as long it takes to write and to read one, again by the shortest of the turns. What is
written and read must be as the format has it, byte for byte.

Then, or alone (--tallies), come tallies of 1024 by 1024 cells: on each level, the milliseconds of a plain read of the
populations, how many times as long it takes to tally them, and the nanoseconds of a call that writes one entry, in places
all over the grid. The tally must be as the request has it.

Last, or alone (--obstacles), come obstacles in a closed box of 256 by 256 cells with Trt: on each level, the milliseconds of
a step of `run` without obstacles, and how many times as long a step takes by a call of its own, alone and with a call for the
obstacles after it: in one cell, and in a square of a hundredth of all cells; by the shortest of five times as many turns.
Each must end like the Rust, bit for bit.

--sides, --kinds (trt, bgk, mrt) and --densities narrow the table. --svg draws it; --page puts it, the checkpoints and the
tallies, in Markdown, between the lines `<!-- measured -->` and `<!-- end of measured -->` of FILE. --machine is the name
that both give the machine. Exit status: 0 done, 1 the ends differ or a worker failed, 2 the words are not understood.";

const FROM: &str = "<!-- measured -->\n";
const TO: &str = "<!-- end of measured -->\n";

/// What to time.
struct Plan {
    seconds: f64,
    turns: u32,
    sides: Vec<usize>,
    kinds: Vec<usize>,
    densities: Vec<u32>,
    machine: String,
    svg: Option<PathBuf>,
    page: Option<PathBuf>,
    /// What is timed alone; all if there is nothing.
    alone: Vec<Part>,
}

/// What can be timed alone.
#[derive(PartialEq)]
enum Part {
    Checkpoints,
    Tallies,
    Obstacles,
}

impl Plan {
    /// Whether all is timed.
    fn whole(&self) -> bool {
        self.alone.is_empty()
    }

    fn has(&self, part: Part) -> bool {
        self.whole() || self.alone.contains(&part)
    }
}

fn main() -> ExitCode {
    let words: Vec<String> = env::args().skip(1).collect();
    let words: Vec<&str> = words.iter().map(String::as_str).collect();
    let ended = match words[..] {
        ["--worker", "checkpoint"] => by_level::work(Checkpoint::new()),
        ["--worker", "tally"] => by_level::work(Tallied::new()),
        ["--worker", "obstacles"] => by_level::work(Obstacles::new()),
        ["--worker", role] => worker::work(role),
        ["--help"] => {
            println!("{HELP}");
            Ok(())
        }
        _ => match plan(&words) {
            Some(plan) => bench(&plan),
            None => {
                println!("{HELP}");
                return ExitCode::from(2);
            }
        },
    };
    match ended {
        Ok(()) => ExitCode::SUCCESS,
        Err(why) => {
            eprintln!("bench: {why}");
            ExitCode::FAILURE
        }
    }
}

fn plan(words: &[&str]) -> Option<Plan> {
    let mut plan = Plan {
        seconds: 4.0,
        turns: 20,
        sides: vec![240, 256, 512, 1024],
        kinds: (0..KINDS.len()).collect(),
        densities: vec![1, 10],
        machine: machine(),
        svg: None,
        page: None,
        alone: Vec::new(),
    };
    let mut words = words.iter();
    while let Some(&word) = words.next() {
        let mut value = || words.next().copied();
        match word {
            "--quick" => (plan.seconds, plan.turns) = (0.3, 3),
            "--checkpoints" => plan.alone.push(Part::Checkpoints),
            "--tallies" => plan.alone.push(Part::Tallies),
            "--obstacles" => plan.alone.push(Part::Obstacles),
            "--seconds" => plan.seconds = value()?.parse().ok().filter(|&seconds| seconds > 0.0)?,
            "--sides" => plan.sides = each(value()?, |side| side.parse().ok())?,
            "--kinds" => plan.kinds = each(value()?, |kind| KINDS.iter().position(|&(word, _)| word == kind))?,
            "--densities" => plan.densities = each(value()?, |density| density.parse().ok())?,
            "--machine" => plan.machine = value()?.to_string(),
            "--svg" => plan.svg = Some(value()?.into()),
            "--page" => plan.page = Some(value()?.into()),
            _ => return None,
        }
    }
    // A page and a picture are of the whole table.
    (plan.whole() || plan.svg.is_none() && plan.page.is_none()).then_some(plan)
}

/// The values of a list.
fn each<T>(list: &str, value: impl Fn(&str) -> Option<T>) -> Option<Vec<T>> {
    list.split(',').map(value).collect()
}

/// The processor, as the system names it, and how many cores there are.
fn machine() -> String {
    let told = fs::read_to_string("/proc/cpuinfo").unwrap_or_default();
    let about = |name: &str| {
        let mut values = told.lines().filter_map(|line| line.split_once(':'));
        values.find_map(|(told, value)| (told.trim() == name).then(|| value.trim()))
    };
    let cores = available_parallelism().map_or(1, |cores| cores.get());
    match (about("model name"), about("cpu family"), about("model")) {
        // A virtual machine's name may say little; family and model say which processor it is.
        (Some(name), Some(family), Some(model)) => format!("{name} (family {family}, model {model}), {cores} cores"),
        (name, ..) => format!("{}, {cores} cores", name.unwrap_or(env::consts::ARCH)),
    }
}

/// Times what a plan asks for, prints it, and writes the picture and the page.
fn bench(plan: &Plan) -> io::Result<()> {
    // A page that cannot be filled in is known before anything is timed.
    let page = plan.page.as_ref().map(|path| Ok::<_, io::Error>((path, parted(&fs::read_to_string(path)?)?))).transpose()?;
    println!("{}", plan.machine);
    let report = if plan.whole() { Some(steps(plan)?) } else { None };
    let mut tables: Vec<String> = report.iter().map(Report::markdown).collect();
    if plan.has(Part::Checkpoints) {
        let rows = checkpoint::table(plan.turns)?;
        println!("{}every file is as the format has it, byte for byte", by_level::text(&rows));
        tables.push(by_level::markdown(&rows));
    }
    if plan.has(Part::Tallies) {
        let rows = tally::table(plan.turns)?;
        println!("{}every tally is as the request has it", by_level::text(&rows));
        tables.push(by_level::markdown(&rows));
    }
    if plan.has(Part::Obstacles) {
        let rows = obstacles::table(plan.turns)?;
        println!("{}all end like the Rust, bit for bit", by_level::text(&rows));
    }
    if let (Some(path), Some(report)) = (&plan.svg, &report) {
        fs::write(path, picture::picture(report))?;
    }
    if let Some((path, (before, after))) = page {
        fs::write(path, format!("{before}{FROM}\n{}.\n\n{}\n{TO}{after}", plan.machine, tables.join("\n")))?;
    }
    Ok(())
}

/// Times all lines of a plan, and prints them.
fn steps(plan: &Plan) -> io::Result<Report> {
    let (mut runners, port) = runners()?;
    let names = runners.iter().map(|runner| runner.name.clone()).collect();
    let mut report = Report { machine: plan.machine.clone(), names, port, lines: Vec::new() };
    println!("{}", report.heading());
    for study in studies(plan) {
        let line = Line { study, times: times(&mut runners, &study, plan)? };
        println!("{}", line.text(&report));
        report.lines.push(line);
    }
    println!("{} lines; in each the Rust and the port end alike, bit for bit", report.lines.len());
    Ok(report)
}

/// What stands before and after the measured part of a page.
fn parted(page: &str) -> io::Result<(String, String)> {
    let parts = page.split_once(FROM).and_then(|(before, rest)| Some((before, rest.split_once(TO)?.1)));
    let (before, after) = parts.ok_or_else(|| io::Error::other("the page has no place for what is measured"))?;
    Ok((before.to_string(), after.to_string()))
}

/// The runners, and the place of the port's lowest level among them.
fn runners() -> io::Result<(Vec<Runner>, usize)> {
    let this = env::current_exe()?;
    let mut runners = vec![Runner::start(&this, "the Rust", "rust", None)?];
    // bench/run builds it, and says where it is.
    if let Some(native) = env::var_os("BROTHWAGON_NATIVE") {
        runners.push(Runner::start(native.as_ref(), "native", "rust", None)?);
    }
    let port = runners.len();
    for level in levels() {
        runners.push(Runner::start(&this, level, "port", Some(level))?);
    }
    runners.push(Runner::start(&this, "copy", "copy", None)?);
    Ok((runners, port))
}

fn studies(plan: &Plan) -> Vec<Study> {
    let mut studies = Vec::new();
    for &side in &plan.sides {
        for &density in &plan.densities {
            for &kind in &plan.kinds {
                studies.extend([false, true].map(|forced| Study { side, density, kind, forced }));
            }
        }
    }
    studies
}

/// Milliseconds a step of each runner, in its best turn; fails where they do not end alike.
fn times(runners: &mut [Runner], study: &Study, plan: &Plan) -> io::Result<Vec<f64>> {
    for runner in &mut *runners {
        runner.begin(study)?;
    }
    // Two steps to warm up; the Rust's second says how many make a turn.
    let mut warm = Vec::new();
    for runner in &mut *runners {
        runner.turn(1)?;
        warm.push(runner.turn(1)?);
    }
    let steps = (plan.seconds / f64::from(plan.turns) / warm[0].as_secs_f64()).round().max(1.0) as u64;
    let mut best = vec![Duration::MAX; runners.len()];
    for _ in 0..plan.turns {
        for (runner, best) in runners.iter_mut().zip(&mut best) {
            *best = runner.turn(steps)?.min(*best);
        }
    }
    if let Some(name) = ends_apart(runners, study)? {
        return Err(io::Error::other(format!("{study}: {name} does not end like the Rust")));
    }
    Ok(best.iter().map(|turn| turn.as_secs_f64() * 1e3 / steps as f64).collect())
}
