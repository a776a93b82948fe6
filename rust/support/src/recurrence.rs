//! "Sets", "Recurrence" and "Verdicts" of the specification in plain Rust, with a function for each figure, and one step of stored
//! values. Written once, over the whole numbers to work in: tests take i128, in which nothing can wrap, and measurements i64.

use crate::specification::{Form, Model, Set, Six, ENTRY_LIMIT};
use pepperscarp::Verdict;
use std::ops::{Add, AddAssign, Mul, Neg, Sub};

const MATRIX_UNIT: i32 = 65_536;
const DIRECTION_UNIT: i32 = 1_048_576;
const GROWTH_LIMIT: i32 = 1_073_741_824;

/// Whole numbers to work in.
pub trait Whole:
    Copy + Ord + From<i32> + From<i64> + Add<Output = Self> + AddAssign + Sub<Output = Self> + Mul<Output = Self> + Neg<Output = Self>
{
    fn abs(self) -> Self;
    fn div_euclid(self, unit: Self) -> Self;
    fn rem_euclid(self, unit: Self) -> Self;
}

macro_rules! whole {
    ($type:ty) => {
        impl Whole for $type {
            #[inline]
            fn abs(self) -> Self {
                self.abs()
            }

            #[inline]
            fn div_euclid(self, unit: Self) -> Self {
                self.div_euclid(unit)
            }

            #[inline]
            fn rem_euclid(self, unit: Self) -> Self {
                self.rem_euclid(unit)
            }
        }
    };
}

whole!(i64);
whole!(i128);

fn zero<T: Whole>() -> T {
    T::from(0i32)
}

fn rounded_up<T: Whole>(x: T, unit: i32) -> T {
    -(-x).div_euclid(T::from(unit))
}

fn one_if_fraction<T: Whole>(x: T, unit: i32) -> T {
    T::from(i32::from(x.rem_euclid(T::from(unit)) != zero()))
}

fn dot<T: Whole>(n: usize, r: &[T; 6], point: &Six) -> T {
    let mut sum = zero();
    for i in 0..n {
        sum += r[i] * T::from(point[i]);
    }
    sum
}

/// The support of a set at r (Sets 9 to 12).
fn support<T: Whole>(n: usize, set: &Set, r: &[T; 6]) -> T {
    let mut dots = set.points.iter().map(|point| dot(n, r, point));
    match set.form {
        Form::Box => {
            let (lower, upper) = (&set.points[0], &set.points[1]);
            let mut sum = zero();
            for i in 0..n {
                let corner = if r[i] > zero() { upper[i] } else { lower[i] };
                sum += r[i] * T::from(corner);
            }
            sum
        }
        Form::Zonotope => {
            let centre = dots.next().expect("a zonotope has a centre");
            dots.fold(centre, |sum, generator| sum + generator.abs())
        }
        Form::Vertices => dots.max().expect("a list has a vertex"),
    }
}

/// How far a set reaches in coordinate i (Sets 13 to 15).
pub fn reach<T: Whole>(set: &Set, i: usize) -> T {
    let sizes = set.points.iter().map(|point| T::from(point[i]).abs());
    match set.form {
        Form::Box | Form::Vertices => sizes.max().unwrap_or(zero()),
        Form::Zonotope => sizes.fold(zero(), |sum, size| sum + size),
    }
}

/// The support at r of what enters at a step (Recurrence 15).
fn entering_support<T: Whole>(model: &Model, r: &[T; 6]) -> T {
    support(model.n, &model.input, r) + dot(model.n, r, &model.drift)
}

/// How far what enters at a step reaches in coordinate i (Recurrence 16).
pub fn entering_reach<T: Whole>(model: &Model, i: usize) -> T {
    reach::<T>(&model.input, i) + T::from(model.drift[i]).abs()
}

fn each_reach<T: Whole>(n: usize, reach: impl Fn(usize) -> T) -> [T; 6] {
    let mut all = [zero(); 6];
    for (i, one) in all.iter_mut().enumerate().take(n) {
        *one = reach(i);
    }
    all
}

/// The error term of the initial set, or of what enters: e · reach (Recurrence 10).
fn errors<T: Whole>(n: usize, e: &[T; 6], reach: &[T; 6]) -> T {
    let mut sum = zero();
    for i in 0..n {
        sum += e[i] * reach[i];
    }
    sum
}

/// r(j) and e(j), the working direction and its errors, which are counted in half units.
#[derive(Clone, PartialEq, Eq, Debug)]
pub struct Working<T> {
    pub r: [T; 6],
    pub e: [T; 6],
}

/// r(0) and e(0) (Recurrence 2).
fn first<T: Whole>(direction: &Six) -> Working<T> {
    Working { r: direction.map(|d| T::from(DIRECTION_UNIT) * T::from(d)), e: [zero(); 6] }
}

/// One step, by the columns of the matrix (Recurrence 3 to 5).
fn next<T: Whole>(n: usize, matrix: &[Six; 6], working: &Working<T>) -> Working<T> {
    let mut next = Working { r: [zero(); 6], e: [zero(); 6] };
    for i in 0..n {
        let (mut sum, mut errors) = (zero::<T>(), zero::<T>());
        for p in 0..n {
            let entry = T::from(matrix[p][i]);
            sum += entry * working.r[p];
            errors += entry.abs() * working.e[p];
        }
        next.r[i] = (sum + T::from(MATRIX_UNIT / 2)).div_euclid(T::from(MATRIX_UNIT));
        next.e[i] = rounded_up(errors, MATRIX_UNIT) + one_if_fraction(sum, MATRIX_UNIT);
    }
    next
}

/// The growth sum (Recurrence 6).
fn growth_sum<T: Whole>(n: usize, working: &Working<T>) -> T {
    (0..n).map(|i| working.r[i].abs() + rounded_up(working.e[i], 2)).max().unwrap_or(zero())
}

/// Whether this growth sum is growth (Recurrence 7).
fn grows<T: Whole>(sum: T) -> bool {
    sum > T::from(GROWTH_LIMIT)
}

/// The spare figure of the largest growth sum (Recurrence 8).
fn spare<T: Whole>(largest: T) -> u32 {
    (0..=30).rev().find(|h| !grows(T::from(1i32 << h) * largest)).expect("nothing grows")
}

/// What a sweep gives where nothing grows.
#[derive(Clone, PartialEq, Eq, Debug)]
pub struct Envelope<T> {
    pub spare: u32,
    pub bounds: Vec<T>,
    pub slacks: Vec<T>,
}

/// The sweep of a direction (Recurrence 11 to 14), or the first step with growth.
pub fn sweep<T: Whole>(model: &Model, direction: &Six) -> Result<Envelope<T>, usize> {
    let (n, size) = (model.n, model.steps + 1);
    let initial_reach = each_reach(n, |i| reach(&model.initial, i));
    let entering_reach = each_reach(n, |i| entering_reach(model, i));
    let mut envelope = Envelope { spare: 0, bounds: Vec::with_capacity(size), slacks: Vec::with_capacity(size) };
    let mut working = first::<T>(direction);
    let (mut largest, mut entered, mut entered_errors) = (zero::<T>(), zero::<T>(), zero::<T>());
    for k in 0..size {
        let sum = growth_sum(n, &working);
        if grows(sum) {
            return Err(k);
        }
        largest = largest.max(sum);
        let half = rounded_up(errors(n, &working.e, &initial_reach) + entered_errors, 2);
        let raw_bound = support(n, &model.initial, &working.r) + entered + half;
        let raw_slack = T::from(2i32) * half;
        envelope.bounds.push(rounded_up(raw_bound, DIRECTION_UNIT));
        envelope.slacks.push(rounded_up(raw_slack, DIRECTION_UNIT) + one_if_fraction(raw_bound, DIRECTION_UNIT));
        entered += entering_support(model, &working.r);
        entered_errors += errors(n, &working.e, &entering_reach);
        working = next(n, &model.matrix, &working);
    }
    envelope.spare = spare(largest);
    Ok(envelope)
}

/// Whether a value reaches a level: only above it (Verdicts 1).
fn reaches<T: Whole>(value: T, level: T) -> bool {
    value > level
}

/// The verdict on a level, by the first-step rules (Verdicts 2 to 4).
pub fn verdict<T: Whole>(envelope: &Envelope<T>, level: i64) -> Verdict {
    let level = T::from(level);
    let certain = envelope.bounds.iter().zip(&envelope.slacks).position(|(bound, slack)| reaches(*bound - *slack, level));
    let open = envelope.bounds.iter().position(|bound| reaches(*bound, level));
    match (certain, open) {
        (Some(step), _) => Verdict::Hit(step),
        (None, Some(step)) => Verdict::Unknown(step),
        (None, None) => Verdict::Clear,
    }
}

/// One step of any stored values, with the growth sum of what it leaves (Routines 8); `None` is number 11.
pub fn step(n: usize, matrix: &[i32; 36], r: &[i64; 6], e: &[i64; 6]) -> Option<(Working<i128>, i128)> {
    if !(1..=6).contains(&n) {
        return None;
    }
    let inside = |k: usize| k / 6 < n && k % 6 < n;
    let entry_ok = |k: usize| (-ENTRY_LIMIT..=ENTRY_LIMIT).contains(&matrix[k]) && (matrix[k] == 0 || inside(k));
    if !(0..36).all(entry_ok) || (n..6).any(|i| r[i] != 0 || e[i] != 0) || e.iter().any(|value| *value < 0) {
        return None;
    }
    let working = Working { r: r.map(i128::from), e: e.map(i128::from) };
    if grows(growth_sum(6, &working)) {
        return None;
    }
    let mut rows = [[0; 6]; 6];
    for (k, entry) in matrix.iter().enumerate() {
        rows[k / 6][k % 6] = *entry;
    }
    let left = next(n, &rows, &working);
    let sum = growth_sum(n, &left);
    Some((left, sum))
}
