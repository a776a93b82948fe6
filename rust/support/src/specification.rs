//! Models, and their reader: "File", "Reading" and "Refusals" of the specification, slow and plain.

use crate::records::body_length;
use crate::recurrence::{entering_reach, reach};
use pepperscarp::Refusal;

pub const ENTRY_LIMIT: i32 = 131_072;
const REACH_LIMIT: i32 = 1_048_576;
const DIRECTION_LIMIT: i32 = 1_000;
const FITTED_LIMIT: f64 = 2.0;

/// Numbers of six coordinates. What lies beyond n is zero.
pub type Six = [i32; 6];

#[derive(Clone, Copy, PartialEq, Eq, Debug)]
pub enum Form {
    Box,
    Zonotope,
    Vertices,
}

/// A set: lower and upper corner, centre and generators, or vertices. Without points it has not been read yet.
#[derive(Clone, PartialEq, Eq, Debug)]
pub struct Set {
    pub form: Form,
    pub points: Vec<Six>,
}

impl Set {
    fn unread() -> Set {
        Set { form: Form::Box, points: Vec::new() }
    }

    /// The box from zero to zero: the input set of a file that has none (File 10).
    pub fn zero_box() -> Set {
        Set { form: Form::Box, points: vec![[0; 6]; 2] }
    }

    fn is_complete(&self) -> bool {
        match self.form {
            Form::Box => self.points.len() == 2,
            Form::Zonotope => self.points.len() >= 2,
            Form::Vertices => !self.points.is_empty(),
        }
    }
}

/// A model.
#[derive(Clone, PartialEq, Eq, Debug)]
pub struct Model {
    pub n: usize,
    pub steps: usize,
    pub matrix: [Six; 6],
    pub drift: Six,
    pub initial: Set,
    pub input: Set,
    pub directions: Vec<Six>,
    pub guards: Vec<(usize, i64)>,
}

/// What has been read so far: n is 0 before the head, `rows` counts those of the matrix, and `drift` tells whether one has come.
struct SoFar {
    model: Model,
    rows: usize,
    drift: bool,
}

fn nothing_read() -> SoFar {
    let model = Model {
        n: 0,
        steps: 0,
        matrix: [[0; 6]; 6],
        drift: [0; 6],
        initial: Set::unread(),
        input: Set::unread(),
        directions: Vec::new(),
        guards: Vec::new(),
    };
    SoFar { model, rows: 0, drift: false }
}

/// Whether a record of this kind may come next, told by what has been read (File 5, File 6).
fn may_come(SoFar { model, rows, drift }: &SoFar, kind: u8) -> bool {
    let head = model.n > 0;
    let rows = head && *rows == model.n;
    // A point of a set whose part is open: the part before it is complete and nothing of a later part has come.
    let point = |set: &Set, open: bool| {
        let count = set.points.len();
        open && match kind & 0x0F {
            0 | 2 => count == 0,
            1 => count == 1 && set.form == Form::Box,
            3 => count >= 1 && set.form == Form::Zonotope,
            _ => count == 0 || set.form == Form::Vertices,
        }
    };
    match kind {
        0x01 => !head,
        0x02 | 0x03 => head && !rows,
        0x05 => rows && !drift && model.initial.points.is_empty(),
        0x10..=0x14 => point(&model.initial, rows && model.input.points.is_empty()),
        0x20..=0x24 => point(&model.input, model.initial.is_complete() && model.directions.is_empty()),
        // Without input records it stands straight after a complete initial set (File 10).
        0x30 => {
            let last = if model.input.points.is_empty() { &model.initial } else { &model.input };
            last.is_complete() && model.guards.is_empty()
        }
        _ => !model.directions.is_empty(),
    }
}

/// Whether the list that a record of this kind belongs to is full (Refusals 9).
fn one_too_many(model: &Model, kind: u8) -> bool {
    match kind {
        0x13 => model.initial.points.len() == 9,
        0x23 => model.input.points.len() == 9,
        0x14 => model.initial.points.len() == 16,
        0x24 => model.input.points.len() == 16,
        0x30 => model.directions.len() == 16,
        0x40 => model.guards.len() == 16,
        _ => false,
    }
}

/// Six numbers of four bytes.
fn six(bytes: &[u8]) -> Six {
    let mut all = [0; 6];
    for (number, four) in all.iter_mut().zip(bytes.chunks_exact(4)) {
        *number = i32::from_le_bytes(four.try_into().expect("four bytes"));
    }
    all
}

/// Six numbers of binary64.
fn six_fitted(bytes: &[u8]) -> [f64; 6] {
    let mut all = [0.0; 6];
    for (value, eight) in all.iter_mut().zip(bytes.chunks_exact(8)) {
        *value = f64::from_le_bytes(eight.try_into().expect("eight bytes"));
    }
    all
}

/// Whether an entry beyond n is other than zero (Refusals 16). A head and a guard have no such entries.
fn rubbish_beyond(n: usize, kind: u8, body: &[u8]) -> bool {
    match kind {
        0x01 | 0x40 => false,
        0x02 => six(&body[1..])[n..].iter().any(|entry| *entry != 0),
        // Either zero is equal to zero, and a NaN to nothing.
        0x03 => six_fitted(&body[1..])[n..].iter().any(|value| *value != 0.0),
        _ => six(body)[n..].iter().any(|entry| *entry != 0),
    }
}

/// What a number of binary64 becomes in the matrix (File 12); `None` where it is not finite or beyond 2 (Refusals 15).
///
/// The product is exact, since 65,536 is a power of two and nothing here is large.
pub fn fitted_entry(value: f64) -> Option<i32> {
    // No comparison holds of a NaN.
    (value.abs() <= FITTED_LIMIT).then(|| (value * 65_536.0).round_ties_even() as i32)
}

/// The entries that six numbers of binary64 become.
fn fitted_entries(values: [f64; 6]) -> Option<Six> {
    let mut all = [0; 6];
    for (entry, value) in all.iter_mut().zip(values) {
        *entry = fitted_entry(value)?;
    }
    Some(all)
}

fn within(numbers: &Six, limit: i32) -> bool {
    numbers.iter().all(|number| (-limit..=limit).contains(number))
}

/// The entries of a scaled (02) or fitted (03) row, or the number that they are refused by (Refusals 5, Refusals 15).
fn row_entries(kind: u8, bytes: &[u8]) -> Result<Six, u8> {
    if kind == 0x03 {
        return fitted_entries(six_fitted(bytes)).ok_or(15);
    }
    Some(six(bytes)).filter(|row| within(row, ENTRY_LIMIT)).ok_or(5)
}

fn take_point(set: &mut Set, n: usize, kind: u8, body: &[u8]) -> bool {
    set.form = match kind & 0x0F {
        0 | 1 => Form::Box,
        2 | 3 => Form::Zonotope,
        _ => Form::Vertices,
    };
    set.points.push(six(body));
    let in_reach = (0..n).all(|i| reach::<i64>(set, i) <= i64::from(REACH_LIMIT));
    let in_order = kind & 0x0F != 1 || (0..n).all(|i| set.points[0][i] <= set.points[1][i]);
    in_reach && in_order
}

/// Stores a record, in which all beyond n is zero; the number of the value test that it fails (Refusals 4 to 8, 15 and 17), or 0.
fn take(SoFar { model, rows, drift }: &mut SoFar, kind: u8, body: &[u8]) -> u8 {
    match kind {
        0x01 => {
            let n = usize::from(body[0]);
            let steps = usize::from(u16::from_le_bytes([body[1], body[2]]));
            if !(1..=6).contains(&n) || steps > 256 {
                return 4;
            }
            model.n = n;
            model.steps = if steps == 0 { 120 } else { steps }; // File 4
        }
        0x02 | 0x03 => {
            if usize::from(body[0]) != *rows {
                return 5;
            }
            match row_entries(kind, &body[1..]) {
                Ok(row) => model.matrix[*rows] = row,
                Err(number) => return number,
            }
            *rows += 1;
        }
        0x05 => {
            *drift = true;
            model.drift = six(body);
            if !within(&model.drift, REACH_LIMIT) {
                return 17;
            }
        }
        0x10..=0x14 => {
            if !take_point(&mut model.initial, model.n, kind, body) {
                return 6;
            }
        }
        0x20..=0x24 => {
            if !take_point(&mut model.input, model.n, kind, body) {
                return 6;
            }
            if (0..model.n).any(|i| entering_reach::<i64>(model, i) > i64::from(REACH_LIMIT)) {
                return 17;
            }
        }
        0x30 => {
            let direction = six(body);
            if !within(&direction, DIRECTION_LIMIT) || direction == [0; 6] {
                return 7;
            }
            if model.input.points.is_empty() {
                model.input = Set::zero_box();
            }
            model.directions.push(direction);
        }
        _ => {
            let direction = usize::from(body[0]);
            if direction >= model.directions.len() {
                return 8;
            }
            model.guards.push((direction, i64::from_le_bytes(body[1..].try_into().expect("eight bytes"))));
        }
    }
    0
}

/// The model of a file, or its number and offset (Reading 1, Reading 2).
pub fn read(file: &[u8]) -> Result<Model, Refusal> {
    let mut so_far = nothing_read();
    let mut offset = 0;
    loop {
        let refuse = |number| Err(Refusal::File { number, offset });
        let Some(&kind) = file.get(offset) else {
            return refuse(1);
        };
        let Some(length) = body_length(kind) else {
            return refuse(2);
        };
        if !may_come(&so_far, kind) {
            return refuse(3);
        }
        if one_too_many(&so_far.model, kind) {
            return refuse(9);
        }
        let Some(body) = file.get(offset + 1..offset + 1 + length) else {
            return refuse(1);
        };
        if kind == 0xFF {
            if offset + 1 < file.len() {
                return Err(Refusal::File { number: 10, offset: offset + 1 });
            }
            return Ok(so_far.model);
        }
        if rubbish_beyond(so_far.model.n, kind, body) {
            return refuse(16);
        }
        let number = take(&mut so_far, kind, body);
        if number != 0 {
            return refuse(number);
        }
        offset += 1 + length;
    }
}
