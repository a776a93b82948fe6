//! Calm models and the limits of their slacks, by hand (Figures 33 to 36 and more) and by the specification in Rust; no slack that
//! a sweep leaves is above its limit (Calm 4), and no direction of a calm model grows (Calm 6).

use crate::makers::{model, nearly_calm_model, Random};
use pepperscarp::{calm, slack_limit, steps_within, sweep, Refusal};
use support::calm as expected;
use support::records::{end, file, fitted, head, numbers, row, Record};
use support::specification::{self, Model};

/// The replies for a model's file are the specification's, for these steps and slacks.
pub fn compare_calm(bytes: &[u8], model: &Model, steps: &[usize], slacks: &[u64]) {
    assert_eq!(calm(bytes), Ok(expected::is_calm(model)), "{model:?}");
    for step in steps {
        assert_eq!(slack_limit(bytes, *step), expected::slack_limit(model, *step), "step {step} of {model:?}");
    }
    for slack in slacks {
        assert_eq!(steps_within(bytes, *slack), expected::steps_within(model, *slack), "slack {slack} of {model:?}");
    }
}

/// A model with these rows, zero as its sets, one direction and so many steps.
fn with_rows(rows: &[Record], steps: u16) -> Vec<u8> {
    let start = [head(rows.len() as u8, steps)];
    file(&[&start[..], rows, &[numbers(0x14, &[0]), numbers(0x30, &[1]), end()]].concat())
}

/// A model with these rows of whole numbers.
fn with_matrix(rows: &[Vec<i32>]) -> Vec<u8> {
    let rows: Vec<Record> = rows.iter().enumerate().map(|(number, entries)| row(number as u8, entries)).collect();
    with_rows(&rows, 3)
}

/// A model of one coordinate with this entry, and direction 1.
fn line(steps: u16, entry: i32, drift: i32, initial: [i32; 2], input: [i32; 2]) -> Vec<u8> {
    let corners = [(0x10, initial[0]), (0x11, initial[1]), (0x20, input[0]), (0x21, input[1]), (0x30, 1)];
    let mut records = vec![head(1, steps), row(0, &[entry]), numbers(0x05, &[drift])];
    records.extend(corners.map(|(kind, corner)| numbers(kind, &[corner])));
    records.push(end());
    file(&records)
}

/// The bounds and slacks of direction 0.
fn swept(bytes: &[u8], steps: usize) -> (Vec<i64>, Vec<i64>) {
    let (mut bounds, mut slacks) = (vec![0; steps + 1], vec![0; steps + 1]);
    sweep(bytes, 0, &mut bounds, &mut slacks).expect("no growth");
    (bounds, slacks)
}

/// The limits of the steps 0 to K are these, later steps have none, and the steps within a slack follow from them.
fn assert_limits(bytes: &[u8], limits: &[u64]) {
    assert_eq!(calm(bytes), Ok(true));
    for (step, limit) in limits.iter().enumerate() {
        assert_eq!(slack_limit(bytes, step), Ok(*limit), "step {step}");
        for slack in [*limit, limit - 1] {
            let reply = limits.iter().rposition(|limit| *limit <= slack).ok_or(Refusal::SlackTooSmall);
            assert_eq!(steps_within(bytes, slack), reply, "slack {slack}");
        }
    }
    for beyond in [limits.len(), limits.len() + 1, 257, 65_536, 1 << 32, usize::MAX - 1, usize::MAX] {
        assert_eq!(slack_limit(bytes, beyond), Err(Refusal::NoSuchStep), "step {beyond}");
    }
    for slack in [limits[limits.len() - 1] + 1, 1_000_000, 1 << 32, 1 << 48, 1 << 63, u64::MAX] {
        assert_eq!(steps_within(bytes, slack), Ok(limits.len() - 1), "slack {slack}");
    }
    for slack in [0, 1] {
        assert_eq!(steps_within(bytes, slack), Err(Refusal::SlackTooSmall));
    }
}

// Figures 33 is in the next two tests.

#[test]
fn one_entry_is_calm_up_to_65536_in_magnitude() {
    for sign in [1, -1] {
        for entry in [0, 1, 32_768, 65_535, 65_536] {
            assert_eq!(calm(&with_matrix(&[vec![sign * entry]])), Ok(true), "{entry}");
        }
        for entry in [65_537, 65_538, 131_071, 131_072] {
            assert_eq!(calm(&with_matrix(&[vec![sign * entry]])), Ok(false), "{entry}");
        }
    }
}

#[test]
fn columns_count_and_not_rows() {
    for (rows, reply) in [
        ([[0, 65_536], [0, 65_536]], false),
        ([[65_536, 0], [65_536, 0]], false),
        ([[0, 0], [65_536, 65_536]], true),
        ([[65_536, 65_536], [0, 0]], true),
        ([[32_768, 32_768], [32_768, 32_768]], true),
        ([[32_768, 32_769], [32_768, 32_768]], false),
    ] {
        assert_eq!(calm(&with_matrix(&rows.map(Vec::from))), Ok(reply), "{rows:?}");
    }
}

#[test]
fn magnitudes_count_and_not_sums() {
    for (column, reply) in [
        ([40_000, -40_000], false),
        ([-65_536, 65_536], false),
        ([-65_537, 0], false),
        ([-32_768, 32_768], true),
        ([-32_768, 32_769], false),
        ([-32_769, -32_768], false),
        ([-32_768, -32_768], true),
    ] {
        for rows in [column.map(|entry| vec![entry, 0]), column.map(|entry| vec![0, entry])] {
            assert_eq!(calm(&with_matrix(&rows)), Ok(reply), "{rows:?}");
        }
    }
}

#[test]
fn each_entry_of_each_column_counts() {
    for n in 1..=6 {
        // Each column sums to 65,536, which 1 to 6 shares make up, with signs of both kinds.
        let share = |r: usize, c: usize| 65_536 / n as i32 + if r == c { 65_536 % n as i32 } else { 0 };
        let rows: Vec<Vec<i32>> =
            (0..n).map(|r| (0..n).map(|c| if (r + 2 * c) % 3 == 0 { -share(r, c) } else { share(r, c) }).collect()).collect();
        assert_eq!(calm(&with_matrix(&rows)), Ok(true), "{rows:?}");
        for (r, c) in (0..n).flat_map(|r| (0..n).map(move |c| (r, c))) {
            for (more, reply) in [(1, false), (-1, true)] {
                let mut rows = rows.clone();
                rows[r][c] += more * rows[r][c].signum();
                assert_eq!(calm(&with_matrix(&rows)), Ok(reply), "{rows:?}");
            }
            // Nothing but this entry.
            for (entry, reply) in [(65_536, true), (65_537, false), (-65_536, true), (-65_537, false)] {
                let mut rows = vec![vec![0; n]; n];
                rows[r][c] = entry;
                assert_eq!(calm(&with_matrix(&rows)), Ok(reply), "{rows:?}");
            }
        }
    }
}

#[test]
fn fitted_entries_are_rounded_before_they_are_added_up() {
    let bits = |entry: f64| (entry / 65_536.0).to_bits();
    for sign in [1.0, -1.0] {
        // Ties go to the even entry.
        for (entry, reply) in [(65_536.0, true), (65_536.5, true), (65_536.500_001, false), (65_537.0, false)] {
            assert_eq!(calm(&with_rows(&[fitted(0, &[bits(sign * entry)])], 3)), Ok(reply), "{entry}");
        }
        for (pair, reply) in [([32_768.5, 32_768.5], true), ([32_768.499, 32_768.499], true), ([32_768.0, 32_768.6], false)] {
            let rows = [fitted(0, &[0, bits(pair[0])]), fitted(1, &[0, bits(sign * pair[1])])];
            assert_eq!(calm(&with_rows(&rows, 3)), Ok(reply), "{pair:?}");
        }
    }
    let mixed = [row(0, &[-32_768, 0]), fitted(1, &[bits(32_768.25), 0])];
    assert_eq!(calm(&with_rows(&mixed, 3)), Ok(true));
}

#[test]
fn case_34_limits_of_an_initial_set() {
    let bytes = line(4, 65_535, 0, [0, 500_000], [0, 0]);
    let bounds = vec![500_000, 499_993, 499_985, 499_978, 499_971];
    assert_eq!(swept(&bytes, 4), (bounds, vec![0, 1, 2, 2, 3]));
    assert_limits(&bytes, &[2, 2, 2, 3, 3]);
    assert_eq!([0, 1, 2, 3, u64::MAX].map(|slack| steps_within(&bytes, slack).ok()), [None, None, Some(2), Some(4), Some(4)]);
}

#[test]
fn case_35_limits_of_inputs_and_a_drift() {
    let bytes = line(5, 65_535, 80_000, [0, 0], [0, 100_000]);
    let bounds = vec![0, 180_000, 359_998, 539_992, 719_984, 899_974];
    assert_eq!(swept(&bytes, 5), (bounds, vec![0, 0, 1, 2, 2, 3]));
    assert_limits(&bytes, &[2, 2, 2, 2, 3, 3]);
    // The drift counts by its magnitude, also against the input set.
    assert_limits(&line(5, 65_535, -80_000, [0, 0], [0, 100_000]), &[2, 2, 2, 2, 3, 3]);
    assert_limits(&line(5, 65_535, 80_000, [0, 0], [-100_000, 0]), &[2, 2, 2, 2, 3, 3]);
    assert_limits(&line(5, 65_535, 180_000, [0, 0], [0, 0]), &[2, 2, 2, 2, 3, 3]);
    assert_limits(&line(5, 65_535, 0, [0, 0], [-180_000, 0]), &[2, 2, 2, 2, 3, 3]);
    assert_limits(&line(5, 65_535, 0, [0, 0], [0, 100_000]), &[2, 2, 2, 2, 2, 2]);
}

#[test]
fn case_36_the_slack_of_the_last_step_is_its_limit() {
    let bytes = line(256, 65_535, 0, [0, 1_044_470], [0, 0]);
    assert_eq!((swept(&bytes, 256).1[256], slack_limit(&bytes, 256)), (256, Ok(256)));
}

#[test]
fn without_a_reach_every_limit_is_2() {
    assert_limits(&line(256, 0, 0, [0, 0], [0, 0]), &[2; 257]);
    assert_limits(&line(1, 65_536, 0, [0, 0], [0, 0]), &[2; 2]);
    // A head that says 0 stands for 120 steps.
    assert_limits(&line(0, 65_536, 0, [0, 0], [0, 0]), &[2; 121]);
}

#[test]
fn full_reaches_give_a_count_for_each_step_and_each_pair_of_steps() {
    let most = 1_048_576;
    let limits = |x: u64, y: u64| -> Vec<u64> { (0..=256).map(|k: u64| k * x + k * (k.max(1) - 1) / 2 * y + 2).collect() };
    assert_limits(&line(256, 65_536, 0, [0, most], [0, 0]), &limits(1, 0));
    assert_limits(&line(256, 65_536, 0, [0, 0], [-most, 0]), &limits(0, 1));
    assert_limits(&line(256, 65_536, -most, [-most, most], [0, 0]), &limits(1, 1));
    // The largest limit that there is.
    let mut records = vec![head(6, 256)];
    records.extend((0..6).map(|number| row(number, &[0])));
    records.extend([0x14, 0x24].map(|kind| numbers(kind, &[most, -most, most, most, -most, most])));
    records.extend([numbers(0x30, &[1]), end()]);
    assert_limits(&file(&records), &limits(6, 6));
    assert_eq!(slack_limit(&file(&records), 256), Ok(197_378));
}

/// The points of a set of each form whose reaches in two coordinates sum to this, with the family's kinds.
fn sets(family: u8, sum: i32) -> [Vec<Record>; 3] {
    let point = |kind: u8, x: i32, y: i32| numbers(family + kind, &[x, y]);
    [
        vec![point(0, -524_288, -1), point(1, 10, sum - 524_288)],
        vec![point(2, -100, 200), point(3, 524_000, -7), point(3, 0, sum - 100 - 200 - 524_000 - 7)],
        vec![point(4, 4, 5), point(4, -524_288, 3), point(4, 9, 524_288 - sum), point(4, 0, 0)],
    ]
}

#[test]
fn reaches_of_all_points_and_coordinates_count() {
    // With no other reach, the limit of step 1 or of step 2 is 3 from a sum of 1,048,576 on.
    for (sum, limit) in [(1_048_575, 2), (1_048_576, 3)] {
        for form in 0..3 {
            let start = [head(2, 2), row(0, &[0, 0]), row(1, &[0, 0])];
            let zero = [numbers(0x14, &[0, 0])];
            let ask = [numbers(0x30, &[1, 0]), end()];
            let bytes = file(&[&start[..], &sets(0x10, sum)[form], &ask].concat());
            assert_eq!(slack_limit(&bytes, 1), Ok(limit), "initial set of form {form}, {sum}");
            let bytes = file(&[&start[..], &zero, &sets(0x20, sum)[form], &ask].concat());
            assert_eq!([1, 2].map(|step| slack_limit(&bytes, step)), [Ok(2), Ok(limit)], "input set of form {form}, {sum}");
            let drift = [numbers(0x05, &[-1_000, 500])];
            let bytes = file(&[&start[..], &drift, &zero, &sets(0x20, sum - 1_500)[form], &ask].concat());
            assert_eq!([1, 2].map(|step| slack_limit(&bytes, step)), [Ok(2), Ok(limit)], "with a drift, form {form}, {sum}");
        }
    }
}

#[test]
fn a_model_that_is_not_calm_is_refused_by_26_before_step_and_slack_are_tested() {
    for bytes in [line(4, 65_537, 0, [0, 1], [0, 0]), line(256, -131_072, 3, [0, 0], [0, 5])] {
        assert_eq!(calm(&bytes), Ok(false));
        for step in (0..300).chain([1 << 32, usize::MAX]) {
            assert_eq!(slack_limit(&bytes, step), Err(Refusal::NotCalm));
        }
        for slack in (0..300).chain([1 << 32, u64::MAX]) {
            assert_eq!(steps_within(&bytes, slack), Err(Refusal::NotCalm));
        }
    }
    let numbers = [Refusal::NotCalm, Refusal::NoSuchStep, Refusal::SlackTooSmall].map(Refusal::number);
    assert_eq!(numbers, [26, 27, 28]);
}

/// The sums of the magnitudes in the columns.
fn column_sums(model: &Model) -> Vec<u32> {
    (0..model.n).map(|column| model.matrix.iter().map(|row| row[column].unsigned_abs()).sum()).collect()
}

/// The steps 0 to K + 1, or of a long model the first, the last and some, and steps far beyond.
fn steps_to_ask(random: &mut Random, last: usize) -> Vec<usize> {
    let mut steps: Vec<usize> = (0..=last + 1).collect();
    if last > 60 && !random.one_in(8) {
        steps.retain(|step| *step < 3 || *step + 3 > last || random.one_in(6));
    }
    steps.extend([256 + last, usize::MAX]);
    steps
}

/// The limits of a calm model through the interface. The first is 2, and none is below the one before.
fn ask_limits(bytes: &[u8], model: &Model) -> Vec<u64> {
    let limits: Vec<u64> = (0..=model.steps).map(|step| slack_limit(bytes, step).expect("calm")).collect();
    assert!(limits[0] == 2 && limits.windows(2).all(|pair| pair[0] <= pair[1]), "{limits:?} of {model:?}");
    limits
}

#[test]
fn every_reply_on_random_models_is_that_of_the_specification() {
    let mut random = Random::new(202_610);
    let (mut replies, mut models) = ([0; 4], [0; 2]);
    let (mut at, mut one_above, mut fitted, mut drifting, mut without_input) = (0, 0, 0, 0, 0);
    let (mut sizes, mut forms, mut input_forms) = ([0; 7], [0; 3], [0; 3]);
    for turn in 0..2_400 {
        let records = if turn % 4 == 0 { model(&mut random) } else { nearly_calm_model(&mut random) };
        let bytes = file(&records);
        let model = specification::read(&bytes).expect("a model");
        let is_calm = expected::is_calm(&model);
        let steps = steps_to_ask(&mut random, model.steps);
        let mut slacks = vec![0, 1, 2, 3, 1 << 32, u64::MAX];
        for limit in steps.iter().filter_map(|step| expected::slack_limit(&model, *step).ok()) {
            slacks.extend([limit, limit - 1]);
        }
        slacks.dedup();
        compare_calm(&bytes, &model, &steps, &slacks);
        for reply in steps.iter().map(|step| slack_limit(&bytes, *step)) {
            replies[match reply {
                Ok(2) => 0,
                Ok(_) => 1,
                Err(Refusal::NoSuchStep) => 2,
                Err(_) => 3,
            }] += 1;
        }
        models[usize::from(is_calm)] += 1;
        let sums = column_sums(&model);
        let largest = *sums.iter().max().expect("a column");
        at += usize::from(largest == 65_536);
        one_above += usize::from(largest == 65_537 && sums.iter().filter(|sum| **sum > 65_536).count() == 1);
        if is_calm {
            let has = |kind| records.iter().any(|record| record.kind == kind);
            fitted += usize::from(has(0x03));
            drifting += usize::from(model.drift != [0; 6]);
            sizes[model.n] += 1;
            forms[model.initial.form as usize] += 1;
            match (0x20..0x30).any(has) {
                true => input_forms[model.input.form as usize] += 1,
                false => without_input += 1,
            }
        }
    }
    println!("not calm, calm {models:?}; limit 2, larger, 27, 26: {replies:?}; largest column 65,536 {at}, 65,537 {one_above}");
    println!(
        "calm: n {sizes:?}, forms {forms:?} and {input_forms:?}, no input {without_input}, fitted {fitted}, drift {drifting}"
    );
    assert!(models.iter().all(|count| *count > 600) && replies.iter().all(|count| *count > 1_000), "each comes often");
    assert!(at > 500 && one_above > 150, "columns at the limit and one above come often");
    assert!(sizes[1..].iter().all(|count| *count > 100) && fitted > 400 && drifting > 400 && without_input > 100);
    assert!(forms.iter().chain(&input_forms).all(|count| *count > 200), "each form comes often");
}

#[test]
fn no_slack_of_a_calm_model_is_above_its_limit_and_none_of_its_directions_grows() {
    let mut random = Random::new(202_611);
    let (mut swept, mut at_limit, mut one_below, mut loud_growth, mut large) = (0, 0, 0, 0, 0);
    for _ in 0..1_200 {
        let bytes = file(&nearly_calm_model(&mut random));
        let model = specification::read(&bytes).expect("a model");
        let (mut bounds, mut slacks) = (vec![0; model.steps + 1], vec![0; model.steps + 1]);
        if !calm(&bytes).expect("a model") {
            let grows = |direction| sweep(&bytes, direction, &mut bounds, &mut slacks).is_err();
            loud_growth += usize::from((0..model.directions.len()).any(grows));
            continue;
        }
        let limits = ask_limits(&bytes, &model);
        for direction in 0..model.directions.len() {
            assert!(sweep(&bytes, direction, &mut bounds, &mut slacks).is_ok(), "direction {direction} of {model:?}");
            for (k, slack) in slacks.iter().enumerate() {
                let slack = u64::try_from(*slack).expect("no slack is below 0");
                assert!(slack <= limits[k], "slack {slack} at step {k} of direction {direction} of {model:?}");
                at_limit += usize::from(slack == limits[k]);
                one_below += usize::from(slack + 1 == limits[k]);
                large += usize::from(slack > 1_000);
            }
            swept += 1;
        }
    }
    println!("{swept} sweeps; slacks at the limit {at_limit}, one below {one_below}, above 1,000 {large}; growing {loud_growth}");
    assert!(swept > 2_000 && at_limit > 100 && one_below > 1_000 && large > 100, "each comes often");
    assert!(loud_growth > 20, "models that are not calm grow: {loud_growth}");
}

#[test]
fn steps_within_a_slack_are_those_before_the_first_larger_limit() {
    let mut random = Random::new(28);
    let mut inside = 0;
    for _ in 0..150 {
        let bytes = file(&nearly_calm_model(&mut random));
        let model = specification::read(&bytes).expect("a model");
        if !calm(&bytes).expect("a model") {
            continue;
        }
        let limits = ask_limits(&bytes, &model);
        for step in [0, model.steps / 2, model.steps, random.below(model.steps + 1)] {
            for slack in [limits[step] - 1, limits[step], limits[step] + 1] {
                match steps_within(&bytes, slack) {
                    Ok(last) => {
                        assert!(limits[..=last].iter().all(|limit| *limit <= slack));
                        assert!(limits[last + 1..].first().map_or(true, |limit| *limit > slack));
                        inside += usize::from(last < model.steps);
                    }
                    Err(refusal) => assert_eq!((refusal, slack), (Refusal::SlackTooSmall, 1)),
                }
            }
        }
    }
    assert!(inside > 200, "many slacks end before the last step: {inside}");
}
