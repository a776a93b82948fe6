//! The records of a model file: their lengths, makers of each kind, and those of a model's one file.

use crate::specification::{Form, Model, Set, Six};

/// One record: its kind and its body.
#[derive(Clone, Debug)]
pub struct Record {
    pub kind: u8,
    pub body: Vec<u8>,
}

/// How many bytes the body of a kind has (File 3); `None` for an unknown kind.
pub fn body_length(kind: u8) -> Option<usize> {
    match kind {
        0x01 => Some(3),
        0x02 => Some(25),
        0x03 => Some(49),
        0x05 | 0x10..=0x14 | 0x20..=0x24 | 0x30 => Some(24),
        0x40 => Some(9),
        0xFF => Some(0),
        _ => None,
    }
}

/// The bytes of a file of these records.
pub fn file(records: &[Record]) -> Vec<u8> {
    let mut bytes = Vec::new();
    for record in records {
        bytes.push(record.kind);
        bytes.extend_from_slice(&record.body);
    }
    bytes
}

pub fn head(n: u8, steps: u16) -> Record {
    let [low, high] = steps.to_le_bytes();
    Record { kind: 0x01, body: vec![n, low, high] }
}

fn six(numbers: &[i32]) -> Vec<u8> {
    let mut all = [0; 6];
    all[..numbers.len()].copy_from_slice(numbers);
    all.map(i32::to_le_bytes).concat()
}

pub fn row(number: u8, entries: &[i32]) -> Record {
    Record { kind: 0x02, body: [vec![number], six(entries)].concat() }
}

/// A row of numbers of binary64, by the 64 bits of each: not every NaN keeps them as a float.
pub fn fitted(number: u8, patterns: &[u64]) -> Record {
    let mut all = [0; 6];
    all[..patterns.len()].copy_from_slice(patterns);
    Record { kind: 0x03, body: [vec![number], all.map(u64::to_le_bytes).concat()].concat() }
}

/// A point of a set, a direction or a drift.
pub fn numbers(kind: u8, entries: &[i32]) -> Record {
    Record { kind, body: six(entries) }
}

pub fn guard(direction: u8, level: i64) -> Record {
    Record { kind: 0x40, body: [vec![direction], level.to_le_bytes().to_vec()].concat() }
}

pub fn end() -> Record {
    Record { kind: 0xFF, body: Vec::new() }
}

/// The points of a set with their kinds. `family` is 0x10 for the initial set and 0x20 for the input set.
pub fn points(family: u8, set: &Set) -> impl Iterator<Item = (u8, &Six)> {
    let (first, others) = match set.form {
        Form::Box => (0, 1),
        Form::Zonotope => (2, 3),
        Form::Vertices => (4, 4),
    };
    set.points.iter().enumerate().map(move |(k, point)| (family + if k == 0 { first } else { others }, point))
}

/// The records of the one file of a model (Writing 1), from its head to its end. A drift of zeros and an input box of zeros have none
/// (Writing 2).
pub fn of_model(model: &Model) -> Vec<Record> {
    let mut records = vec![head(model.n as u8, model.steps as u16)];
    records.extend(model.matrix.iter().take(model.n).enumerate().map(|(number, entries)| row(number as u8, entries)));
    if model.drift != [0; 6] {
        records.push(numbers(0x05, &model.drift));
    }
    records.extend(points(0x10, &model.initial).map(|(kind, point)| numbers(kind, point)));
    if model.input != Set::zero_box() {
        records.extend(points(0x20, &model.input).map(|(kind, point)| numbers(kind, point)));
    }
    records.extend(model.directions.iter().map(|direction| numbers(0x30, direction)));
    records.extend(model.guards.iter().map(|(direction, level)| guard(*direction as u8, *level)));
    records.push(end());
    records
}
