//! What the Rust does not know is asked of the library and of a request's own words: the questions, one after the other.

pub mod lent;
pub mod limits;
pub mod seen;
pub mod shown;
pub mod smaller;
pub mod spoiled;
pub mod states;

use crate::Plan;
use crate::made::Made;
use crate::progress::Progress;
use seen::{Call, Difference, Met, Seen};
use smaller::smallest;
use source::levels::level;
use std::collections::BTreeMap;
use std::fmt;

/// A long comparison meets each answer so often, or says little.
const OFTEN: u64 = 100;

/// What a question asks.
pub trait Ask: Clone + fmt::Display {
    /// Makes the calls on what begins so many items past an aligned address, and compares all that they answer and leave.
    fn compare(&self, past: usize) -> Result<Seen, Difference>;

    /// What makes it the larger one: the sides and lengths, then all that is not 0.
    fn size(&self) -> (u128, usize);

    /// Others that may be smaller in one thing, the boldest first.
    fn simpler(&self) -> Box<dyn Iterator<Item = Self> + '_>;
}

#[derive(Clone)]
pub struct Question<A> {
    pub asked: A,
    /// How many items past an address that eight of them divide each lent buffer begins.
    pub past: usize,
}

/// So many questions, and the one of each place among them.
pub type Sweep<A> = (usize, fn(usize) -> A);

/// A part of the comparison.
pub struct Part<A: 'static> {
    /// The word that runs it alone.
    pub word: &'static str,
    /// What its questions are about.
    pub name: &'static str,
    /// What is asked whatever the seed.
    pub sweeps: &'static [Sweep<A>],
    /// What is asked at a place behind those.
    pub made_up: fn(&mut Made, u64) -> A,
    /// What each call can answer.
    pub answers: &'static [(Call, &'static [u32])],
    /// What else is counted.
    pub others: &'static [Met],
}

/// What has been compared.
#[derive(Default)]
struct Counts {
    questions: u64,
    compared: u64,
    met: BTreeMap<Met, u64>,
}

impl<A: Ask> Part<A> {
    /// Asks all that is asked whatever the seed, and twice as many made-up questions as the plan has cases; says what was
    /// seen, and whether all was alike.
    pub fn compare(&self, plan: &Plan) -> bool {
        let sweeps: usize = self.sweeps.iter().map(|&(count, _)| count).sum();
        let places = plan.only.map_or(0..sweeps as u64 + 2 * plan.cases, |only| only..only + 1);
        let mut counts = Counts::default();
        let mut progress = Progress::new();
        for place in places {
            let question = self.question(plan.seed, place);
            if plan.only.is_some() {
                println!("{question}");
            }
            match question.compare() {
                Ok(seen) => counts.add(seen),
                Err(difference) => {
                    self.differs(plan, place, question, difference);
                    return false;
                }
            }
            progress.show(|| format!("{} {}, {} bytes and entries", counts.questions, self.name, counts.compared));
        }
        self.report(plan, &counts);
        self.met_all(plan, &counts)
    }

    fn question(&self, seed: u64, place: u64) -> Question<A> {
        let mut at = place as usize;
        for &(count, ask) in self.sweeps {
            if at < count {
                return Question { asked: ask(at), past: place as usize % 8 };
            }
            at -= count;
        }
        let mut made = Made::of(seed, place);
        let past = made.below(8) as usize;
        Question { asked: (self.made_up)(&mut made, place), past }
    }

    /// Says what differs, in the smallest question that still does.
    fn differs(&self, plan: &Plan, place: u64, question: Question<A>, difference: Difference) {
        let (word, seed) = (self.word, plan.seed);
        println!("question {place} of seed {seed} differs ({word} --seed {seed} --only {place}): {difference}");
        let (question, difference) = smallest(question, difference);
        println!("\nthe smallest found that differs:\n{question}\n{difference}");
    }

    /// Each number that each call can answer, and how often it did.
    fn numbers(&self, counts: &Counts) -> impl Iterator<Item = (Met, u64)> {
        let each = self.answers.iter().flat_map(|&(call, numbers)| numbers.iter().map(move |&number| (call, number)));
        each.map(|(call, number)| counts.times(Met::Number(call, number)))
    }

    /// What else is counted, and how often it was met.
    fn others(&self, counts: &Counts) -> impl Iterator<Item = (Met, u64)> {
        self.others.iter().map(|&met| counts.times(met))
    }

    fn report(&self, plan: &Plan, counts: &Counts) {
        println!("seed {}, level {}", plan.seed, level());
        for (met, times) in self.numbers(counts) {
            println!("  {:<28}{times:>9} times", met.to_string());
        }
        let Counts { questions, compared, .. } = counts;
        let asked = format!("{questions} {} on {}", self.name, level());
        let others: String = self.others(counts).map(|(met, times)| format!("; {met} {times} times")).collect();
        println!("compare: {asked}, {compared} bytes and entries compared, 0 differences{others}");
    }

    fn met_all(&self, plan: &Plan, counts: &Counts) -> bool {
        let long = plan.only.is_none() && plan.cases >= 10_000;
        let seldom = self.numbers(counts).chain(self.others(counts)).find(|&(_, times)| long && times < OFTEN);
        if let Some((met, times)) = seldom {
            println!("compare: {met} only {times} times");
        }
        seldom.is_none()
    }
}

impl Counts {
    fn times(&self, met: Met) -> (Met, u64) {
        (met, self.met.get(&met).copied().unwrap_or(0))
    }

    fn add(&mut self, seen: Seen) {
        self.questions += 1;
        self.compared += seen.compared;
        for met in seen.met {
            *self.met.entry(met).or_default() += 1;
        }
    }
}

impl<A: Ask> Question<A> {
    pub fn compare(&self) -> Result<Seen, Difference> {
        self.asked.compare(self.past)
    }
}

impl<A: Ask> fmt::Display for Question<A> {
    fn fmt(&self, out: &mut fmt::Formatter) -> fmt::Result {
        write!(out, "{}\n  what is lent begins {} items past a multiple of eight", self.asked, self.past)
    }
}
