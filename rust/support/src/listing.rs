//! The text of a listing: what the program writes for a file (Listing 1 to 7).

use crate::recurrence::{sweep, verdict, Envelope, Whole};
use crate::specification;
use pepperscarp::{Refusal, Verdict};
use std::fmt;

/// What a listing tells: for each direction its sweep, for each guard its verdict, or the first step with growth.
pub struct Listing<T> {
    pub n: usize,
    pub steps: usize,
    pub directions: Vec<Result<Envelope<T>, usize>>,
    pub guards: Vec<Result<Verdict, usize>>,
}

/// The listing of a file by the specification alone, or why the file is refused.
pub fn of_file<T: Whole>(file: &[u8]) -> Result<Listing<T>, Refusal> {
    let model = specification::read(file)?;
    let directions: Vec<_> = model.directions.iter().map(|direction| sweep(&model, direction)).collect();
    let judge = |(direction, level): &(usize, i64)| match &directions[*direction] {
        Ok(envelope) => Ok(verdict(envelope, *level)),
        Err(step) => Err(*step),
    };
    let guards = model.guards.iter().map(judge).collect();
    Ok(Listing { n: model.n, steps: model.steps, directions, guards })
}

impl<T: fmt::Display> fmt::Display for Listing<T> {
    fn fmt(&self, f: &mut fmt::Formatter<'_>) -> fmt::Result {
        writeln!(f, "model {} {}", self.n, self.steps)?;
        for (number, swept) in self.directions.iter().enumerate() {
            match swept {
                Err(step) => writeln!(f, "dir {number} growth {step}")?,
                Ok(envelope) => {
                    writeln!(f, "dir {number} spare {}", envelope.spare)?;
                    for (k, (bound, slack)) in envelope.bounds.iter().zip(&envelope.slacks).enumerate() {
                        writeln!(f, "{k} {bound} {slack}")?;
                    }
                }
            }
        }
        for (number, judged) in self.guards.iter().enumerate() {
            match judged {
                Err(step) => writeln!(f, "guard {number} GROWTH {step}")?,
                Ok(Verdict::Hit(step)) => writeln!(f, "guard {number} HIT {step}")?,
                Ok(Verdict::Unknown(step)) => writeln!(f, "guard {number} UNKNOWN {step}")?,
                Ok(Verdict::Clear) => writeln!(f, "guard {number} CLEAR")?,
            }
        }
        Ok(())
    }
}

/// The text that the program writes: a listing, or `refused N at P`.
pub fn text<T: fmt::Display>(reply: Result<Listing<T>, Refusal>) -> String {
    match reply {
        Ok(listing) => listing.to_string(),
        Err(Refusal::File { number, offset }) => format!("refused {number} at {offset}\n"),
        Err(refusal) => unreachable!("a file is not answered by number {}", refusal.number()),
    }
}
