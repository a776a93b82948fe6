//! Tuned Rust of the specification's recurrence, for speed alone: flat arrays by reference, every loop to the constant 6,
//! magnitudes and reaches taken once for a sweep, no test inside a step but that of growth. The input set is laid out moved by the
//! drift, which then costs a step nothing. It is made for a model that has been tested, with boxes or vertex lists.

use pepperscarp::Refusal;
use support::specification::{Form, Model, Set, Six};

const GROWTH_LIMIT: u64 = 1_073_741_824;

/// A model laid out for the sweep.
pub struct Laid {
    steps: usize,
    matrix: [i32; 36],
    magnitudes: [u32; 36],
    initial: Points,
    input: Points,
    directions: [[i32; 6]; 16],
    count: usize,
}

struct Points {
    is_box: bool,
    count: usize,
    points: [i32; 96],
    reach: [u64; 6],
}

/// A set moved by a vector, with the sum of both reaches (Recurrence 16).
fn lay_set(set: &Set, by: &Six) -> Points {
    let mut laid = Points { is_box: set.form == Form::Box, count: set.points.len(), points: [0; 96], reach: [0; 6] };
    for (k, point) in set.points.iter().enumerate() {
        for i in 0..6 {
            laid.points[6 * k + i] = point[i] + by[i];
            laid.reach[i] = laid.reach[i].max(u64::from(point[i].unsigned_abs()));
        }
    }
    for i in 0..6 {
        laid.reach[i] += u64::from(by[i].unsigned_abs());
    }
    laid
}

/// The model laid out. This is done once for each sweep that is measured, as part of it.
pub fn lay(model: &Model) -> Laid {
    let mut laid = Laid {
        steps: model.steps,
        matrix: [0; 36],
        magnitudes: [0; 36],
        initial: lay_set(&model.initial, &[0; 6]),
        input: lay_set(&model.input, &model.drift),
        directions: [[0; 6]; 16],
        count: model.directions.len(),
    };
    for k in 0..36 {
        let entry = model.matrix[k / 6][k % 6];
        laid.matrix[k] = entry;
        laid.magnitudes[k] = entry.unsigned_abs();
    }
    for (k, direction) in model.directions.iter().enumerate() {
        laid.directions[k] = *direction;
    }
    laid
}

#[inline(always)]
fn dot(r: &[i64; 6], point: &[i32]) -> i64 {
    let term = |i: usize| r[i] * i64::from(point[i]);
    (term(0) + term(1)) + (term(2) + term(3)) + (term(4) + term(5))
}

#[inline(always)]
fn support(set: &Points, r: &[i64; 6]) -> i64 {
    if set.is_box {
        let mut sum = 0;
        for i in 0..6 {
            let corner = if r[i] > 0 { set.points[6 + i] } else { set.points[i] };
            sum += r[i] * i64::from(corner);
        }
        return sum;
    }
    let r = *r;
    let mut largest = i64::MIN;
    for point in set.points[..6 * set.count].chunks_exact(6) {
        largest = largest.max(dot(&r, point));
    }
    largest
}

#[inline(always)]
fn errors(e: &[u64; 6], reach: &[u64; 6]) -> u64 {
    let mut sum = 0;
    for i in 0..6 {
        sum += e[i] * reach[i];
    }
    sum
}

#[inline(always)]
fn step(laid: &Laid, r: &mut [i64; 6], e: &mut [u64; 6]) {
    let mut sums = [0i64; 6];
    let mut errors = [0u64; 6];
    for i in 0..6 {
        for p in 0..6 {
            sums[i] += i64::from(laid.matrix[6 * p + i]) * r[p];
        }
    }
    for i in 0..6 {
        for p in 0..6 {
            errors[i] += u64::from(laid.magnitudes[6 * p + i]) * e[p];
        }
    }
    for i in 0..6 {
        r[i] = (sums[i] + 32_768) >> 16;
        e[i] = ((errors[i] + 65_535) >> 16) + u64::from(sums[i] & 65_535 != 0);
    }
}

/// Bounds and slacks of a direction for steps 0 to K, and the spare figure. On a refusal both lists keep every element.
pub fn sweep(laid: &Laid, direction: usize, bounds: &mut [i64], slacks: &mut [i64]) -> Result<u32, Refusal> {
    if direction >= laid.count {
        return Err(Refusal::NoSuchNumber);
    }
    let size = laid.steps + 1;
    if bounds.len() != size || slacks.len() != size {
        return Err(Refusal::WrongLength);
    }
    let mut bound_row = [0i64; 257];
    let mut slack_row = [0i64; 257];
    let mut r = laid.directions[direction].map(|d| i64::from(d) << 20);
    let mut e = [0u64; 6];
    let mut largest = 0;
    let mut before = 0i64;
    let mut errors_before = 0u64;
    for (k, (bound, slack)) in bound_row.iter_mut().zip(slack_row.iter_mut()).enumerate().take(size) {
        let mut sum = 0;
        for i in 0..6 {
            sum = sum.max(r[i].unsigned_abs() + ((e[i] + 1) >> 1));
        }
        if sum > GROWTH_LIMIT {
            return Err(Refusal::Growth(k));
        }
        largest = largest.max(sum);
        let half = (errors(&e, &laid.initial.reach) + errors_before + 1) >> 1;
        let raw = support(&laid.initial, &r) + half as i64 + before;
        *bound = (raw + 1_048_575) >> 20;
        *slack = ((2 * half + 1_048_575) >> 20) as i64 + i64::from(raw & 1_048_575 != 0);
        before += support(&laid.input, &r);
        errors_before += errors(&e, &laid.input.reach);
        step(laid, &mut r, &mut e);
    }
    bounds.copy_from_slice(&bound_row[..size]);
    slacks.copy_from_slice(&slack_row[..size]);
    Ok(((largest - 1) as u32).leading_zeros() - 2)
}
