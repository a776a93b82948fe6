//! The drift: what it adds to the bounds, and what is refused, in which order. Figures 24 to 27 are in `figures.rs`.

use crate::makers::{damage_bytes, model, open_model, Random};
use pepperscarp::{listing, sweep, Refusal, LISTING_ROOM};
use support::records::{end, file, fitted, head, numbers, of_model, row, Record};
use support::specification::{self, Form, Model};

const LIMIT: i32 = 1_048_576;

/// A file of two coordinates with these records behind its rows, a direction and the end.
fn behind_rows(records: &[Record]) -> Vec<u8> {
    let mut all = vec![head(2, 1), row(0, &[0, 0]), row(1, &[0, 0])];
    all.extend_from_slice(records);
    all.extend([numbers(0x30, &[1, 0]), end()]);
    file(&all)
}

/// Number and offset of a refused file; `None` of an accepted one with one step.
fn refusal(bytes: &[u8]) -> Option<(u8, usize)> {
    match sweep(bytes, 0, &mut [0; 2], &mut [0; 2]) {
        Ok(_) => None,
        Err(Refusal::File { number, offset }) => Some((number, offset)),
        Err(other) => panic!("{other}"),
    }
}

/// The model without its drift, and with its input set moved by it (Sets 20).
fn moved(model: &Model) -> Model {
    let mut moved = model.clone();
    let count = if model.input.form == Form::Zonotope { 1 } else { model.input.points.len() };
    for point in &mut moved.input.points[..count] {
        for (x, by) in point.iter_mut().zip(model.drift) {
            *x += by;
        }
    }
    moved.drift = [0; 6];
    moved
}

#[test]
fn the_moved_input_set_has_bounds_that_are_no_higher_and_within_the_slack() {
    let mut random = Random::new(202_606);
    let (mut compared, mut smaller, mut same) = (0, 0, 0);
    for _ in 0..4_000 {
        let mut records = open_model(&mut random);
        records.push(end());
        let model = specification::read(&file(&records)).expect("a model");
        if model.drift == [0; 6] {
            continue;
        }
        let (bytes, other) = (file(&records), file(&of_model(&moved(&model))));
        let size = model.steps + 1;
        let (mut bounds, mut slacks) = (vec![0; size], vec![0; size]);
        let (mut moved_bounds, mut moved_slacks) = (vec![0; size], vec![0; size]);
        let answer = sweep(&bytes, 0, &mut bounds, &mut slacks);
        assert_eq!(sweep(&other, 0, &mut moved_bounds, &mut moved_slacks), answer, "growth and spare figure have no part in it");
        if answer.is_err() {
            continue;
        }
        for k in 0..size {
            assert!(moved_bounds[k] <= bounds[k], "never larger, since it reaches no farther");
            // The exact largest value is between bound - slack and bound of both.
            assert!(bounds[k] - slacks[k] <= moved_bounds[k]);
        }
        compared += 1;
        if moved_bounds == bounds {
            same += 1;
        } else {
            smaller += 1;
        }
    }
    println!("{compared} sweeps, {smaller} of them smaller where the set is moved");
    assert!(smaller > 100 && same > 100, "both come often: {smaller} and {same}");
}

#[test]
fn a_drift_of_zeros_is_listed_as_none() {
    let mut random = Random::new(15);
    let (mut first, mut second) = (vec![0; LISTING_ROOM], vec![0; LISTING_ROOM]);
    let (mut models, mut refused) = (0, 0);
    for turn in 0..1_500 {
        let mut records = model(&mut random);
        records.retain(|record| record.kind != 0x05);
        let place = records.iter().position(|record| record.kind >= 0x10).expect("an initial set");
        let start = file(&records[..place]);
        let mut behind = file(&records[place..]).split_off(1);
        if turn % 2 == 0 {
            damage_bytes(&mut random, &mut behind);
        }
        let kind = [records[place].kind];
        let without = [&start[..], &kind, &behind].concat();
        let with = [&start[..], &file(&[numbers(0x05, &[0; 6])]), &kind, &behind].concat();
        let said = std::str::from_utf8(listing(&without, &mut first).expect("room")).expect("a text");
        let expected = match said.strip_prefix("refused ").and_then(|rest| rest.trim_end().split_once(" at ")) {
            Some((number, offset)) => {
                refused += 1;
                format!("refused {number} at {}\n", offset.parse::<usize>().expect("an offset") + 25)
            }
            None => {
                models += 1;
                said.to_string()
            }
        };
        assert_eq!(listing(&with, &mut second), Some(expected.as_bytes()), "file {without:02X?}");
    }
    assert!(models > 700 && refused > 400, "both come often: {models} and {refused}");
}

#[test]
fn it_stands_once_and_straight_after_the_last_row() {
    let drift = || numbers(0x05, &[1, 2]);
    let records = [
        head(2, 1),
        row(0, &[0, 0]),
        fitted(1, &[0, 0]),
        numbers(0x14, &[0, 0]),
        numbers(0x24, &[0, 0]),
        numbers(0x30, &[1, 0]),
        end(),
    ];
    for place in 0..=records.len() {
        let mut changed = records.to_vec();
        changed.insert(place, drift());
        let at = file(&records[..place]).len();
        let number = if place < records.len() { 3 } else { 10 };
        assert_eq!(refusal(&file(&changed)), (place != 3).then_some((number, at)));
    }
    let mut twice = records.to_vec();
    twice.splice(3..3, [drift(), drift()]);
    assert_eq!(refusal(&file(&twice)), Some((3, 105)));
    let cut = file(&[head(1, 1), row(0, &[0]), numbers(0x05, &[i32::MAX])]);
    for length in 31..cut.len() {
        assert_eq!(refusal(&cut[..length]), Some((1, 30)), "the body comes before its values");
    }
    assert_eq!(refusal(&cut), Some((17, 30)));
}

#[test]
fn the_first_n_entries_are_tested_by_17_and_the_others_by_16() {
    for i in 0..6 {
        for entry in [LIMIT, -LIMIT, LIMIT + 1, -LIMIT - 1, i32::MIN, i32::MAX] {
            let mut entries = [0; 6];
            entries[i] = entry;
            let bytes = behind_rows(&[numbers(0x05, &entries), numbers(0x14, &[0, 0])]);
            let too_large = !(-LIMIT..=LIMIT).contains(&entry);
            let expected = if i >= 2 { Some((16, 56)) } else { too_large.then_some((17, 56)) };
            assert_eq!(refusal(&bytes), expected, "{entries:?}");
        }
    }
}

#[test]
fn the_sum_is_tested_at_each_point_of_the_input_set_after_6() {
    let initial = numbers(0x14, &[LIMIT, -LIMIT]);
    let with = |drift: [i32; 2], input: &[Record]| behind_rows(&[&[numbers(0x05, &drift), initial.clone()], input].concat());
    for sign in [1, -1] {
        let near = [0, sign * (LIMIT - 100)];
        // The points before the last, whose kind is told, and what it adds where the sum is at its limit.
        let corner = numbers(0x20, &[0, -60]);
        let zonotope = [numbers(0x22, &[0, -50]), numbers(0x23, &[0, 9])];
        for (before, kind, last) in [
            (&[][..], 0x20, -100i32),
            (&[corner.clone()][..], 0x21, 100),
            (&[][..], 0x22, 100),
            (&zonotope[..], 0x23, -41),
            (&[numbers(0x24, &[0, 70])][..], 0x24, -100),
        ] {
            let place = 106 + 25 * before.len();
            for more in [0, 1] {
                let mut input = before.to_vec();
                input.push(numbers(kind, &[0, last + more * last.signum()]));
                match kind {
                    0x20 => input.push(numbers(0x21, &[0, 0])),
                    0x22 => input.push(numbers(0x23, &[0, 0])),
                    _ => {}
                }
                let expected = if more == 1 { Some((17, place)) } else { None };
                assert_eq!(refusal(&with(near, &input)), expected, "kind {kind:02X}, drift {near:?}");
            }
        }
        let full = [0, sign * LIMIT];
        for kind in [0x20, 0x22, 0x24] {
            assert_eq!(refusal(&with(full, &[numbers(kind, &[0, LIMIT + 1])])), Some((6, 106)));
            assert_eq!(refusal(&with(full, &[numbers(kind, &[LIMIT + 1, 1])])), Some((6, 106)));
            assert_eq!(refusal(&with(full, &[numbers(kind, &[LIMIT, 1])])), Some((17, 106)));
        }
        // Crossed corners come before the sum too, in whichever coordinate.
        let lower = numbers(0x20, &[3, 0]);
        for upper in [[3, -1], [2, 1], [3, LIMIT + 1]] {
            assert_eq!(refusal(&with(full, &[lower.clone(), numbers(0x21, &upper)])), Some((6, 131)));
        }
        assert_eq!(refusal(&with(full, &[lower.clone(), numbers(0x21, &[3, 1])])), Some((17, 131)));
        assert_eq!(refusal(&with(full, &[lower, numbers(0x21, &[3, 0])])), None);
        assert_eq!(refusal(&with(full, &[])), None, "without an input set the drift alone counts");
    }
}
