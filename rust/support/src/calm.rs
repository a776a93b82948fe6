//! "Calm" of the specification in plain Rust, with a function for each question of the interface.

use crate::recurrence::{entering_reach, reach};
use crate::specification::Model;
use pepperscarp::Refusal;

const COLUMN_LIMIT: i64 = 65_536;
const DIRECTION_UNIT: u64 = 1_048_576;

/// Whether the magnitudes in each column of the matrix sum to at most 65,536 (Calm 1).
pub fn is_calm(model: &Model) -> bool {
    let magnitude = |row: usize, column: usize| i64::from(model.matrix[row][column]).abs();
    (0..model.n).all(|column| (0..model.n).map(|row| magnitude(row, column)).sum::<i64>() <= COLUMN_LIMIT)
}

/// How far a model's sets reach, added up over its coordinates: X and Y (Calm 2).
struct Reaches {
    initial: i64,
    entering: i64,
}

fn reaches(model: &Model) -> Reaches {
    Reaches {
        initial: (0..model.n).map(|i| reach::<i64>(&model.initial, i)).sum(),
        entering: (0..model.n).map(|i| entering_reach::<i64>(model, i)).sum(),
    }
}

/// The limit at step k, which is at most 256 (Calm 3).
fn limit(reaches: &Reaches, k: i64) -> u64 {
    let raw = k * reaches.initial + k * (k - 1) / 2 * reaches.entering + 1;
    (raw as u64).div_ceil(DIRECTION_UNIT) + 1
}

/// The limit of the slacks of a calm model at a step, or the first of Refusals 26 and 27 that applies.
pub fn slack_limit(model: &Model, step: usize) -> Result<u64, Refusal> {
    if !is_calm(model) {
        return Err(Refusal::NotCalm);
    }
    if step > model.steps {
        return Err(Refusal::NoSuchStep);
    }
    Ok(limit(&reaches(model), step as i64))
}

/// The largest step up to which every limit is at most this slack (Calm 7), or the first of Refusals 26 and 28 that applies.
pub fn steps_within(model: &Model, slack: u64) -> Result<usize, Refusal> {
    if !is_calm(model) {
        return Err(Refusal::NotCalm);
    }
    let reaches = reaches(model);
    (0..=model.steps).take_while(|step| limit(&reaches, *step as i64) <= slack).last().ok_or(Refusal::SlackTooSmall)
}
