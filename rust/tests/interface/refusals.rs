//! Refusals: the number, offset or step is the specification's, and no lent element changes.

use crate::calm::compare_calm;
use crate::lent::Lent;
use crate::makers::{damage_bytes, damage_records, is_row, longest, model, open_model, Random};
use crate::sweeps::{compare_judge, compare_sweep};
use crate::writing::written;
use pepperscarp::{calm, judge, list_length, slack_limit, steps_within, sweep, Refusal, LONGEST_LIST, WRITE_ROOM};
use std::collections::BTreeMap;
use support::records::{body_length, end, file, guard, head, numbers, of_model, row, Record};
use support::recurrence;
use support::specification;

/// Each call refuses the file by this number at this offset, for any direction, guard, step, slack and lengths, and touches nothing.
fn assert_refused(bytes: &[u8], expected: Refusal, asked: usize, lengths: (usize, usize)) {
    for call in [sweep_as_unit, judge_as_unit] {
        let (mut bounds, mut slacks) = (Lent::new(lengths.0), Lent::new(lengths.1));
        assert_eq!(call(bytes, asked, bounds.part(), slacks.part()), Err(expected), "file {bytes:02X?}");
        assert!(bounds.is_untouched() && slacks.is_untouched());
    }
    assert_eq!(written(bytes, lengths.0), Err(expected), "file {bytes:02X?}");
    assert_eq!(calm(bytes), Err(expected), "file {bytes:02X?}");
    assert_eq!(slack_limit(bytes, asked), Err(expected), "file {bytes:02X?}");
    assert_eq!(steps_within(bytes, asked as u64), Err(expected), "file {bytes:02X?}");
}

fn sweep_as_unit(bytes: &[u8], direction: usize, bounds: &mut [i64], slacks: &mut [i64]) -> Result<(), Refusal> {
    sweep(bytes, direction, bounds, slacks).map(|_| ())
}

fn judge_as_unit(bytes: &[u8], guard: usize, bounds: &mut [i64], slacks: &mut [i64]) -> Result<(), Refusal> {
    judge(bytes, guard, bounds, slacks).map(|_| ())
}

/// The file's reply, whatever it is, is the specification's. The number by which it is refused, or 0.
fn compare_file(random: &mut Random, bytes: &[u8]) -> u8 {
    match specification::read(bytes) {
        Err(refusal) => {
            let said = list_length(bytes).map_or(0, |length| length.min(LONGEST_LIST));
            let length = random.pick(&[0, 1, 2, 4, said, LONGEST_LIST]);
            let asked = random.pick(&[0, 0, 1, 15, 16, usize::MAX]);
            assert_refused(bytes, refusal, asked, (length, random.pick(&[length, said])));
            refusal.number()
        }
        Ok(model) => {
            compare_sweep(bytes, &model, random.below(model.directions.len()));
            if !model.guards.is_empty() {
                let _ = compare_judge(bytes, &model, random.below(model.guards.len()));
            }
            assert_eq!(written(bytes, WRITE_ROOM), Ok(file(&of_model(&model))), "file {bytes:02X?}");
            // Numbers of its own, so that the files of the tests stay as they are.
            let mut apart = Random::new(bytes.len() as u64);
            compare_calm(bytes, &model, &[apart.below(model.steps + 2)], &[apart.pick(&[0, 1, 2, 3, 100, u64::MAX])]);
            0
        }
    }
}

#[test]
fn a_file_cut_anywhere_is_refused_as_the_specification_says() {
    let mut random = Random::new(11);
    for _ in 0..60 {
        let bytes = file(&model(&mut random));
        for length in 0..bytes.len() {
            assert_ne!(compare_file(&mut random, &bytes[..length]), 0, "a part of a file is no model");
        }
    }
}

#[test]
fn files_with_damaged_records_and_values_get_the_reply_of_the_specification() {
    let mut random = Random::new(12);
    let mut seen = BTreeMap::new();
    for _ in 0..40_000 {
        let mut records = model(&mut random);
        damage_records(&mut random, &mut records);
        if random.one_in(4) && records.first().is_some_and(|record| record.kind == 0x01 && (1..=6).contains(&record.body[0])) {
            let any = |of_sort: fn(u8) -> bool| records.iter().any(|record| of_sort(record.kind));
            let parts = [is_row, |kind| (0x10..0x30).contains(&kind), |kind| kind == 0x30];
            if parts.into_iter().all(any) && records.iter().all(has_its_body) {
                damage_records(&mut random, &mut records);
            }
        }
        *seen.entry(compare_file(&mut random, &file(&records))).or_insert(0) += 1;
    }
    println!("accepted (0), and refused by each number: {seen:?}");
    assert!(seen.keys().copied().eq((0..=10).chain(15..=17)), "every number comes: {seen:?}");
    assert!(seen.values().all(|count| *count > 20), "often: {seen:?}");
}

/// The record's body is as long as its kind says, so that a second damage finds its place.
fn has_its_body(record: &Record) -> bool {
    Some(record.body.len()) == body_length(record.kind)
}

#[test]
fn files_with_damaged_bytes_get_the_reply_of_the_specification() {
    let mut random = Random::new(13);
    let mut seen = BTreeMap::new();
    for _ in 0..40_000 {
        let mut bytes = file(&model(&mut random));
        damage_bytes(&mut random, &mut bytes);
        *seen.entry(compare_file(&mut random, &bytes)).or_insert(0) += 1;
    }
    println!("accepted (0), and refused by each number: {seen:?}");
    seen.remove(&9);
    assert!(seen.keys().copied().eq((0..=8).chain([10, 15, 16, 17])), "every number but 9 comes: {seen:?}");
    assert!(seen.values().all(|count| *count > 20), "often: {seen:?}");
}

#[test]
fn bytes_that_were_never_a_model_get_the_reply_of_the_specification() {
    let mut random = Random::new(14);
    let kinds = [0x01, 0x02, 0x03, 0x05, 0x10, 0x11, 0x12, 0x13, 0x14, 0x20, 0x21, 0x24, 0x30, 0x40, 0xFF];
    for _ in 0..40_000 {
        let length = random.pick(&[0, 1, 3, 4, 5, 30, 90, 200, 2_048, 3_000]);
        let mut bytes: Vec<u8> = (0..length).map(|_| random.bits() as u8).collect();
        if random.one_in(2) && !bytes.is_empty() {
            bytes[0] = random.pick(&kinds);
        }
        assert_ne!(compare_file(&mut random, &bytes), 0);
    }
}

#[test]
fn any_kind_in_place_of_any_record_of_a_small_model_gets_the_reply_of_the_specification() {
    let mut random = Random::new(15);
    let records = small_model();
    for place in 0..records.len() {
        for kind in 0..=255 {
            let mut records = records.clone();
            records[place].kind = kind;
            compare_file(&mut random, &file(&records));
            records.truncate(place + 1);
            records[place].body.clear();
            compare_file(&mut random, &file(&records));
        }
    }
}

fn small_model() -> Vec<Record> {
    vec![
        head(1, 3),
        row(0, &[32_768]),
        numbers(0x05, &[-7]),
        numbers(0x12, &[0]),
        numbers(0x13, &[4]),
        numbers(0x24, &[0]),
        numbers(0x24, &[1]),
        numbers(0x30, &[1]),
        guard(0, 2),
        end(),
    ]
}

#[test]
fn a_direction_or_guard_that_is_not_there_is_refused_by_12_before_the_lengths_are_tested() {
    let mut random = Random::new(16);
    for _ in 0..500 {
        let bytes = file(&model(&mut random));
        let model = specification::read(&bytes).expect("a model");
        for beyond in [0, 1, 100, usize::MAX / 2] {
            for length in [model.steps + 1, 0, 3] {
                let (mut bounds, mut slacks) = (Lent::new(length), Lent::new(model.steps + 1));
                let direction = model.directions.len() + beyond;
                assert_eq!(sweep(&bytes, direction, bounds.part(), slacks.part()), Err(Refusal::NoSuchNumber));
                let guard = model.guards.len() + beyond;
                assert_eq!(judge(&bytes, guard, bounds.part(), slacks.part()), Err(Refusal::NoSuchNumber));
                assert!(bounds.is_untouched() && slacks.is_untouched());
            }
        }
    }
}

#[test]
fn a_list_of_any_other_length_is_refused_by_13_before_growth_is_tested() {
    let mut random = Random::new(17);
    let mut growing = 0;
    for _ in 0..500 {
        let bytes = file(&model(&mut random));
        let model = specification::read(&bytes).expect("a model");
        let right = model.steps + 1;
        let grows = recurrence::sweep::<i128>(&model, &model.directions[0]).is_err();
        growing += usize::from(grows);
        for wrong in [0, 1, right - 1, right + 1, 2 * right, 1_000] {
            if wrong == right {
                continue;
            }
            for (first, second) in [(wrong, right), (right, wrong), (wrong, wrong), (wrong, 0)] {
                let (mut bounds, mut slacks) = (Lent::new(first), Lent::new(second));
                assert_eq!(sweep(&bytes, 0, bounds.part(), slacks.part()), Err(Refusal::WrongLength));
                if !model.guards.is_empty() {
                    assert_eq!(judge(&bytes, 0, bounds.part(), slacks.part()), Err(Refusal::WrongLength));
                }
                assert!(bounds.is_untouched() && slacks.is_untouched());
            }
        }
    }
    assert!(growing > 50, "growing models are among them: {growing}");
}

#[test]
fn growth_at_the_last_step_leaves_the_lists_untouched() {
    // Doubling: 1,048,576 passes 1,073,741,824 at step 11.
    let model = |steps| {
        let mut records = vec![head(1, steps), row(0, &[131_072])];
        for kind in [0x10, 0x11, 0x20, 0x21] {
            records.push(numbers(kind, &[0]));
        }
        records.push(numbers(0x30, &[1]));
        records.push(guard(0, 0));
        records.push(end());
        file(&records)
    };
    for steps in 11..=256 {
        let length = usize::from(steps) + 1;
        let (mut bounds, mut slacks) = (Lent::new(length), Lent::new(length));
        assert_eq!(sweep(&model(steps), 0, bounds.part(), slacks.part()), Err(Refusal::Growth(11)));
        assert_eq!(judge(&model(steps), 0, bounds.part(), slacks.part()), Err(Refusal::Growth(11)));
        assert!(bounds.is_untouched() && slacks.is_untouched());
    }
}

#[test]
fn one_more_of_anything_that_is_counted_is_refused_by_9_and_the_most_is_accepted() {
    let mut random = Random::new(18);
    for (kind, most) in [(0x13, 8), (0x23, 8), (0x14, 16), (0x24, 16), (0x30, 16), (0x40, 16)] {
        for count in [most, most + 1] {
            let mut records = vec![head(2, 2), row(0, &[1, 2]), row(1, &[3, 4])];
            for (family, centre, generator, vertex) in [(0x10u8, 0x12, 0x13, 0x14), (0x20, 0x22, 0x23, 0x24)] {
                if kind == generator {
                    records.push(numbers(centre, &[1, 1]));
                    records.extend((0..count).map(|_| numbers(generator, &[1, 0])));
                } else if kind == vertex {
                    records.extend((0..count).map(|_| numbers(vertex, &[1, 0])));
                } else {
                    records.extend([numbers(family, &[0, 0]), numbers(family + 1, &[1, 1])]);
                }
            }
            records.extend((0..if kind == 0x30 { count } else { 1 }).map(|_| numbers(0x30, &[1, 1])));
            records.extend((0..if kind == 0x40 { count } else { 0 }).map(|_| guard(0, 5)));
            records.push(end());
            let number = compare_file(&mut random, &file(&records));
            assert_eq!(number, if count > most { 9 } else { 0 }, "kind {kind:02X}, {count} of them");
        }
    }
}

#[test]
fn the_longest_file_is_accepted_and_a_byte_more_is_refused_by_10() {
    let mut bytes = file(&longest());
    assert_eq!(bytes.len(), 1_690);
    let model = specification::read(&bytes).expect("a model");
    assert_eq!(model.matrix, [[9_000, -9_000, 9_000, -9_000, 9_000, -9_000]; 6]);
    for number in 0..16 {
        compare_sweep(&bytes, &model, number);
        compare_judge(&bytes, &model, number).expect("calm");
    }
    bytes.push(0xFF);
    assert_refused(&bytes, Refusal::File { number: 10, offset: 1_690 }, 0, (257, 257));
}

#[test]
fn open_models_without_an_end_are_refused_by_1_at_their_length() {
    let mut random = Random::new(19);
    for _ in 0..200 {
        let bytes = file(&open_model(&mut random));
        assert_refused(&bytes, Refusal::File { number: 1, offset: bytes.len() }, 0, (2, 2));
    }
}
