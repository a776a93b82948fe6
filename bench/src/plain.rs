//! Plain Rust: the recurrence as one writes it at first (the crate `support`), in i64, and the writer of a model's one file.

use pepperscarp::{Refusal, WRITE_ROOM};
use support::records::points;
use support::recurrence;
use support::specification::{Model, Set, Six};

/// Bounds and slacks of a direction for steps 0 to K, and the spare figure. On a refusal both lists keep every element.
pub fn sweep(model: &Model, direction: usize, bounds: &mut [i64], slacks: &mut [i64]) -> Result<u32, Refusal> {
    let direction = model.directions.get(direction).ok_or(Refusal::NoSuchNumber)?;
    if bounds.len() != model.steps + 1 || slacks.len() != model.steps + 1 {
        return Err(Refusal::WrongLength);
    }
    let envelope = recurrence::sweep::<i64>(model, direction).map_err(Refusal::Growth)?;
    bounds.copy_from_slice(&envelope.bounds);
    slacks.copy_from_slice(&envelope.slacks);
    Ok(envelope.spare)
}

fn put_six(out: &mut Vec<u8>, numbers: &Six) {
    for number in numbers {
        out.extend_from_slice(&number.to_le_bytes());
    }
}

fn put_set(out: &mut Vec<u8>, family: u8, set: &Set) {
    for (kind, point) in points(family, set) {
        out.push(kind);
        put_six(out, point);
    }
}

/// The one file of a model that has been tested (Writing 1, Writing 2).
pub fn write(model: &Model) -> Vec<u8> {
    let mut out = Vec::with_capacity(WRITE_ROOM);
    out.extend_from_slice(&[0x01, model.n as u8]);
    out.extend_from_slice(&(model.steps as u16).to_le_bytes());
    for (number, row) in model.matrix.iter().enumerate().take(model.n) {
        out.extend_from_slice(&[0x02, number as u8]);
        put_six(&mut out, row);
    }
    if model.drift != [0; 6] {
        out.push(0x05);
        put_six(&mut out, &model.drift);
    }
    put_set(&mut out, 0x10, &model.initial);
    if model.input != Set::zero_box() {
        put_set(&mut out, 0x20, &model.input);
    }
    for direction in &model.directions {
        out.push(0x30);
        put_six(&mut out, direction);
    }
    for (direction, level) in &model.guards {
        out.extend_from_slice(&[0x40, *direction as u8]);
        out.extend_from_slice(&level.to_le_bytes());
    }
    out.push(0xFF);
    out
}
