//! What a listing tells, asked of the interface call by call.

use crate::listing::Listing;
use crate::recurrence::Envelope;
use pepperscarp::{judge, list_length, sweep, Refusal};

/// The answers of one call for number 0, 1, 2 and so on until there is no such number; growth is told by its step.
fn each<A>(mut call: impl FnMut(usize) -> Result<A, Refusal>) -> Result<Vec<Result<A, usize>>, Refusal> {
    let mut answers = Vec::new();
    loop {
        match call(answers.len()) {
            Ok(answer) => answers.push(Ok(answer)),
            Err(Refusal::Growth(step)) => answers.push(Err(step)),
            Err(Refusal::NoSuchNumber) => return Ok(answers),
            Err(refusal) => return Err(refusal),
        }
    }
}

/// The listing of a file, from the calls alone, or why the file is refused.
pub fn listing(file: &[u8]) -> Result<Listing<i64>, Refusal> {
    // A file without a head is refused whatever the length.
    let length = list_length(file).unwrap_or(0);
    let (mut bounds, mut slacks) = (vec![0; length], vec![0; length]);
    let directions = each(|number| {
        let spare = sweep(file, number, &mut bounds, &mut slacks)?;
        Ok(Envelope { spare, bounds: bounds.clone(), slacks: slacks.clone() })
    })?;
    let guards = each(|number| judge(file, number, &mut bounds, &mut slacks))?;
    Ok(Listing { n: usize::from(file[1]), steps: length - 1, directions, guards })
}
