//! Makes a case's call on the port, and compares every number and every entry with what is expected.

use crate::call::call;
use crate::case::{BUFFERS, Case, F, GUARD, Operation, POST};
use crate::expected::{Answer, Lent, Listed, all_made, ask, expected, pattern};
use crate::floors::Floors;
use crate::rules;

/// Both sides' buffers, kept from case to case.
#[derive(Default)]
pub struct Comparison {
    rust: Lent,
    port: Lent,
    /// For what the Rust is asked about the port's answer.
    again: Lent,
    pub listed: Listed,
    pub floors: Floors,
}

/// What was compared in a case without a difference.
pub struct Seen {
    pub number: u32,
    pub entries: u64,
}

/// What differs, in words.
pub type Difference = String;

impl Comparison {
    pub fn compare(&mut self, case: &Case) -> Result<Seen, Difference> {
        let before = case.before();
        for &buffer in before.as_ref().unwrap_or(case).operation.lent() {
            case.fill(buffer, &mut self.rust.0[buffer]);
            self.port.0[buffer].clone_from(&self.rust.0[buffer]);
        }
        let Some(run) = before else { return self.compare_call(case) };
        let entries = self.compare_call(&run)?.entries;
        // Alike but for the NaNs that steps made: from here on the Rust has the port's, and copies them bit for bit.
        self.rust.0[F].clone_from(&self.port.0[F]);
        let seen = self.compare_call(case)?;
        Ok(Seen { entries: entries + seen.entries, ..seen })
    }

    /// One call on both sides' buffers as they are.
    fn compare_call(&mut self, case: &Case) -> Result<Seen, Difference> {
        let (before, mut floors) = (self.listed, self.floors);
        if rules::number(case) == 0 {
            floors.count(case, &self.rust.0[F]);
        }
        let wanted = expected(case, &mut self.rust, &mut self.listed);
        let got = call(case, &mut self.port);
        same_answer(&wanted, &got)?;
        let mut entries = 5;
        for &buffer in case.operation.lent() {
            entries += self.same_buffer(case, &wanted, buffer)?;
        }
        if wanted.number == 0 {
            self.floors = floors;
            match case.operation {
                Operation::Reverse => entries += self.streams_back(case)?,
                // The Rust's own run knows nothing of a sum that was put right on the way.
                Operation::RunToSteadyState if self.listed.sums == before.sums => {
                    entries += self.settles_alike(case, &wanted)?
                }
                _ => {}
            }
        }
        Ok(Seen { number: wanted.number, entries })
    }

    /// What a lent buffer holds before the call.
    pub fn lent(case: &Case, buffer: usize) -> Vec<f64> {
        let mut filled = Vec::new();
        case.fill(buffer, &mut filled);
        filled.truncate(case.length(buffer));
        filled
    }

    /// A buffer and the guard behind it are as expected.
    fn same_buffer(&self, case: &Case, wanted: &Answer, buffer: usize) -> Result<u64, Difference> {
        let (rust, port) = (&self.rust.0[buffer], &self.port.0[buffer]);
        let length = case.length(buffer);
        // What the reverse leaves is streamed instead.
        if (case.operation, wanted.number, buffer) != (Operation::Reverse, 0, POST) {
            let made = all_made(case, wanted, buffer);
            same_entries(BUFFERS[buffer], &rust[..length], &port[..length], made)?;
        }
        same_entries("the entries behind a buffer", &rust[length..], &port[length..], false)?;
        Ok((length + GUARD) as u64)
    }

    /// The Rust streams what the reverse left into the populations that were lent.
    fn streams_back(&mut self, case: &Case) -> Result<u64, Difference> {
        let [f, post, ..] = &mut self.again.0;
        post.clone_from(&self.port.0[POST]);
        f.clone_from(post);
        ask(case, f, post, |rust| rust.stream_with_faces());
        let length = case.length(F);
        same_entries("f, streamed from post", &self.rust.0[F][..length], &f[..length], false)?;
        Ok(length as u64)
    }

    /// The Rust's own steady run takes as many steps, to the same residual and the same populations.
    fn settles_alike(&mut self, case: &Case, wanted: &Answer) -> Result<u64, Difference> {
        let [f, post, ..] = &mut self.again.0;
        case.fill(F, f);
        case.fill(POST, post);
        let (steps, residual) =
            ask(case, f, post, |rust| rust.run_to_steady_state(case.tolerance, case.steps as usize, case.check_every as usize));
        let [_, wanted_steps, wanted_residual, _] = wanted.words;
        if (steps as u64, residual.to_bits()) != (wanted_steps, wanted_residual) {
            return Err(format!(
                "the Rust's own steady run ends after {steps} steps with residual {residual:?}; by the rule, {wanted_steps} steps \
                 with {:?}",
                f64::from_bits(wanted_residual)
            ));
        }
        let length = case.length(F);
        let made = all_made(case, wanted, F);
        same_entries("f of the Rust's own steady run", &f[..length], &self.port.0[F][..length], made)?;
        Ok(length as u64)
    }
}

fn same_answer(wanted: &Answer, got: &Answer) -> Result<(), Difference> {
    if wanted.number != got.number {
        return Err(format!("number {} expected, the port answers {}", wanted.number, got.number));
    }
    match (0..4).find(|&at| wanted.words[at] != got.words[at]) {
        Some(at) => {
            Err(format!("answer {at}: {} expected, the port answers {}", shown(wanted.words[at]), shown(got.words[at])))
        }
        None => Ok(()),
    }
}

/// Every entry has the same 64 bits; where arithmetic `made` them all, any NaN of the Rust stands for the one of the port.
fn same_entries(name: &str, wanted: &[f64], got: &[f64], made: bool) -> Result<(), Difference> {
    let bits = |wanted: f64| if made { pattern(wanted) } else { wanted.to_bits() };
    match wanted.iter().zip(got).position(|(&wanted, got)| bits(wanted) != got.to_bits()) {
        Some(at) => {
            let (wanted, got) = (shown(bits(wanted[at])), shown(got[at].to_bits()));
            Err(format!("{name} at {at}: {wanted} expected, the port has {got}"))
        }
        None => Ok(()),
    }
}

fn shown(word: u64) -> String {
    format!("{word:#018x} ({:?})", f64::from_bits(word))
}
