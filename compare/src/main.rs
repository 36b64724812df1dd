//! Compares the proved library with the Rust that it carries over, call by call, on made-up cases.

mod call;
mod case;
mod checkpoints;
mod comparison;
mod differences;
mod expected;
mod floors;
mod levels;
mod made;
mod progress;
mod questions;
mod random;
mod rules;
mod shrink;
mod studies;
mod tallies;

use case::{BUFFERS, Case, OPERATIONS};
use checkpoints::CHECKPOINTS;
use comparison::{Comparison, Difference};
use floors::Floors;
use progress::Progress;
use questions::shown;
use source::levels::{as_asked, level};
use std::env;
use std::process::ExitCode;
use tallies::TALLIES;

const HELP: &str = "\
compare/run [SOURCE] [--cases N] [--seed N] [--quick] [--only PLACE]
compare/run [SOURCE] --checkpoints|--tallies [--cases N] [--seed N] [--quick] [--only PLACE]
compare/run [SOURCE] --studies [--whole]
compare/run [SOURCE] --differences
compare/run [SOURCE] .. --levels

Compares the proved library with the Rust of SOURCE (../shared/docs/src by default), through the C interface, on N made-up
cases (1,000,000; --quick: 100,000). Each case is one call: its number, its answers and every entry of every lent buffer are
compared, and so are refused calls, by the table of the rules. In one half the floor is the Rust's 1e-12; in the other it is
another, which the Rust is given in both its density tests. Before a call with obstacles come some steps, or none, which are
compared as well. --only compares one case of the list that the seed starts, and shows it. The first difference that is not
listed ends it, with the smallest case found that still differs, and exit status 1.

Before the cases, or alone (--checkpoints), come checkpoint files, which the Rust does not know: the library is compared
with a reading of the format's own words. It is given every prefix of two small files, every value of each byte before the
entries, and sides and lengths about their limits; then it writes N made-up states and reads them back, and reads N files
that are spoiled. The number, the answer and all that is lent are compared. With --checkpoints, --only picks one of these.

Then, or alone (--tallies), come tallies, compared in the same way. The library is given every small grid, every place of
one, every value of each byte of a tally file, and sides and lengths about their limits; then 2 N made-up questions, a fifth
of each kind: it tallies populations; it writes entries one after the other, and the tally is worked out afresh after each;
it streams with faces, which keeps the sum on a lossless grid; it writes tally files, and it reads spoiled ones. With
--tallies, --only picks one of these.

--studies runs each study of the repository for 20 steps instead, or for all its steps (--whole), prints the fingerprint
that the Rust gives it, and ends with status 1 where the library gives another, or where a study is not physical: a speed of
0.3 or more, a number that is not finite, or a mass that drifts without inlet or outlet. --differences asks both what
docs/DIFFERENCES.md records, and ends with status 1 where either answers otherwise.

The library runs on the highest level of the processor that the machine has, or on the one that BROTHWAGON_LEVEL in the
environment names. --levels, with any of the above, compares on each in turn, from the lowest. Status 2: the words are not
understood, or the machine lacks the level.";

/// What to compare.
struct Plan {
    seed: u64,
    cases: u64,
    only: Option<u64>,
    /// What is compared alone, if anything is.
    alone: Option<Alone>,
}

/// What can be compared alone.
enum Alone {
    Checkpoints,
    Tallies,
}

/// What has been compared.
#[derive(Default)]
struct Counts {
    cases: u64,
    entries: u64,
    by_operation: [u64; OPERATIONS.len()],
    /// Those answered with each number.
    by_number: [u64; 17],
}

/// The numbers that these calls can answer.
const NUMBERS: [usize; 12] = [0, 1, 2, 3, 4, 5, 6, 7, 8, 9, 10, 16];

fn main() -> ExitCode {
    let words: Vec<String> = env::args().skip(1).collect();
    let words: Vec<&str> = words.iter().map(String::as_str).collect();
    if words.contains(&"--levels") {
        let others: Vec<&str> = words.into_iter().filter(|&word| word != "--levels").collect();
        return levels::each(&others);
    }
    if !as_asked() {
        return ExitCode::from(2);
    }
    match words[..] {
        ["--studies"] => return studies::compare(false),
        ["--studies", "--whole"] => return studies::compare(true),
        ["--differences"] => return differences::show(),
        _ => (),
    }
    let Some(plan) = plan(&words) else {
        println!("{HELP}");
        return if words == ["--help"] { ExitCode::SUCCESS } else { ExitCode::from(2) };
    };
    let alike = match plan.alone {
        Some(Alone::Checkpoints) => CHECKPOINTS.compare(&plan),
        Some(Alone::Tallies) => TALLIES.compare(&plan),
        // One case is compared without what comes before the cases.
        None if plan.only.is_some() => made_up(&plan),
        None => CHECKPOINTS.compare(&plan) && TALLIES.compare(&plan) && made_up(&plan),
    };
    if alike { ExitCode::SUCCESS } else { ExitCode::FAILURE }
}

/// Compares the made-up cases of a plan; answers whether all were alike, and met all that there is to meet.
fn made_up(plan: &Plan) -> bool {
    let mut comparison = Comparison::default();
    let places = plan.only.map_or(0..plan.cases, |only| only..only + 1);
    let mut counts = Counts::default();
    let mut progress = Progress::new();
    for place in places {
        let case = random::case(plan.seed, place);
        if plan.only.is_some() {
            println!("{case}");
        }
        match comparison.compare(&case) {
            Ok(seen) => {
                counts.cases += 1;
                counts.entries += seen.entries;
                counts.by_operation[case.operation as usize] += 1;
                counts.by_number[seen.number as usize] += 1;
            }
            Err(difference) => {
                differs(&mut comparison, plan, place, case, difference);
                return false;
            }
        }
        progress.show(|| format!("{} cases, {} entries", counts.cases, counts.entries));
    }
    report(plan, &counts, &comparison);
    reached_all(&counts, &comparison)
}

fn plan(words: &[&str]) -> Option<Plan> {
    let mut plan = Plan { seed: 1, cases: 1_000_000, only: None, alone: None };
    let mut words = words.iter();
    while let Some(word) = words.next() {
        let mut number = || words.next()?.parse().ok();
        match *word {
            "--seed" => plan.seed = number()?,
            "--cases" => plan.cases = number()?,
            "--only" => plan.only = Some(number()?),
            "--quick" => plan.cases = 100_000,
            "--checkpoints" if plan.alone.is_none() => plan.alone = Some(Alone::Checkpoints),
            "--tallies" if plan.alone.is_none() => plan.alone = Some(Alone::Tallies),
            _ => return None,
        }
    }
    Some(plan)
}

/// Says what differs, in the smallest case that still does.
fn differs(comparison: &mut Comparison, plan: &Plan, place: u64, case: Case, difference: Difference) {
    println!("case {place} of seed {} differs (--seed {0} --only {place}): {difference}", plan.seed);
    let (case, difference) = shrink::smallest(comparison, case, difference);
    println!("\nthe smallest case found that differs:\n{case}");
    for &buffer in case.operation.lent() {
        println!("  {} holds {}", BUFFERS[buffer], shown::patterns(&Comparison::lent(&case, buffer)));
    }
    println!("{difference}");
}

fn report(plan: &Plan, counts: &Counts, comparison: &Comparison) {
    println!("seed {}, level {}", plan.seed, level());
    for (operation, cases) in OPERATIONS.iter().zip(counts.by_operation) {
        println!("  {:<18}{cases:>9} cases", format!("{operation:?}"));
    }
    for number in NUMBERS {
        println!("  number {number:<11}{:>9} cases", counts.by_number[number]);
    }
    println!("listed differences: {} sums of -0.0 only", comparison.listed.sums);
    println!("                    {} steady runs over a bad snapshot", comparison.listed.snapshots);
    println!("                    {} of them over finite velocities, where a density is not", comparison.listed.densities);
    let Floors { calls, read, collided, exact } = &comparison.floors;
    println!("floors: {calls} calls with a density test had another than 1e-12");
    println!("        {} cells were read and {} collided at rest, which by 1e-12 would move", read.at_rest, collided.at_rest);
    println!("        {} cells were read and {} collided moving, which by 1e-12 would rest", read.moving, collided.moving);
    println!("        {exact} cells had that density, or its negative, to the last bit");
    let (cases, entries) = (counts.cases, counts.entries);
    println!("compare: {cases} cases on {}, {entries} entries compared, 0 differences that are not listed", level());
}

/// A long comparison that never met some number, number 9 for a density alone, or what a floor decides, would say little.
fn reached_all(counts: &Counts, comparison: &Comparison) -> bool {
    let numbers = NUMBERS.into_iter().filter(|&number| counts.by_number[number] == 0);
    let mut missed: Vec<String> = numbers.map(|number| format!("number {number}")).collect();
    if comparison.listed.densities == 0 {
        missed.push("number 9 for a density alone".to_string());
    }
    missed.extend(comparison.floors.missed().map(str::to_string));
    let little = counts.cases >= 10_000 && !missed.is_empty();
    if little {
        println!("compare: no case met {}", missed.join(", "));
    }
    !little
}
