//! The specification's recurrence in f64 and without error terms: what a program gives that only estimates. Its bounds are not
//! safe. It takes boxes and vertex lists.

use support::specification::{Form, Model, Set};

fn support(set: &Set, r: &[f64; 6]) -> f64 {
    if set.form == Form::Box {
        let (lower, upper) = (&set.points[0], &set.points[1]);
        let mut sum = 0.0;
        for i in 0..6 {
            let corner = if r[i] > 0.0 { upper[i] } else { lower[i] };
            sum += r[i] * f64::from(corner);
        }
        return sum;
    }
    let mut largest = f64::NEG_INFINITY;
    for vertex in &set.points {
        let mut sum = 0.0;
        for i in 0..6 {
            sum += r[i] * f64::from(vertex[i]);
        }
        largest = largest.max(sum);
    }
    largest
}

/// Estimates of a direction's largest value for steps 0 to K.
pub fn sweep(model: &Model, direction: usize, values: &mut [f64]) {
    let matrix = model.matrix.map(|row| row.map(|entry| f64::from(entry) / 65_536.0));
    let mut r = model.directions[direction].map(f64::from);
    let mut inputs = 0.0;
    for value in values.iter_mut().take(model.steps + 1) {
        *value = support(&model.initial, &r) + inputs;
        inputs += support(&model.input, &r);
        for i in 0..6 {
            inputs += r[i] * f64::from(model.drift[i]);
        }
        let mut next = [0.0; 6];
        for p in 0..6 {
            for i in 0..6 {
                next[i] += matrix[p][i] * r[p];
            }
        }
        r = next;
    }
}
