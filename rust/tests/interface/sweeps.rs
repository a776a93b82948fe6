//! Accepted models: every sweep and every verdict is the specification's, and a set with one point more has the support that
//! Sets 17 and 18 say.

use crate::lent::Lent;
use crate::makers::{open_model, Random};
use pepperscarp::{judge, list_length, sweep, Refusal, Verdict};
use std::collections::BTreeMap;
use support::records::{end, file, guard, of_model, Record};
use support::recurrence;
use support::specification::{self, Form, Model};

/// What the specification gives, in numbers that can't wrap.
type Envelope = recurrence::Envelope<i128>;

/// The sweep of one direction through the interface is the specification's; the envelope, where there is one.
pub fn compare_sweep(bytes: &[u8], model: &Model, direction: usize) -> Option<Envelope> {
    let (mut bounds, mut slacks) = (Lent::new(model.steps + 1), Lent::new(model.steps + 1));
    let answer = sweep(bytes, direction, bounds.part(), slacks.part());
    compare_lists(model, direction, answer.map(|_| ()), &bounds, &slacks)
        .inspect(|envelope| assert_eq!(answer, Ok(envelope.spare)))
}

/// The judge of one guard through the interface is the specification's.
pub fn compare_judge(bytes: &[u8], model: &Model, number: usize) -> Result<Verdict, Refusal> {
    let (mut bounds, mut slacks) = (Lent::new(model.steps + 1), Lent::new(model.steps + 1));
    let answer = judge(bytes, number, bounds.part(), slacks.part());
    let (direction, level) = model.guards[number];
    if let Some(envelope) = compare_lists(model, direction, answer.map(|_| ()), &bounds, &slacks) {
        assert_eq!(answer, Ok(recurrence::verdict(&envelope, level)), "level {level} of {model:?}");
    }
    answer
}

/// The lists are the specification's sweep of the direction, or it grows, the answer says so and the lists are untouched.
fn compare_lists(model: &Model, direction: usize, answer: Result<(), Refusal>, bounds: &Lent, slacks: &Lent) -> Option<Envelope> {
    match recurrence::sweep(model, &model.directions[direction]) {
        Err(step) => {
            assert_eq!(answer, Err(Refusal::Growth(step)), "direction {direction} of {model:?}");
            assert!(bounds.is_untouched() && slacks.is_untouched());
            None
        }
        Ok(envelope) => {
            assert_eq!(answer, Ok(()), "direction {direction} of {model:?}");
            let wide = |lent: &Lent| -> Vec<i128> { lent.now().iter().map(|value| i128::from(*value)).collect() };
            assert_eq!(wide(bounds), envelope.bounds, "bounds of direction {direction} of {model:?}");
            assert_eq!(wide(slacks), envelope.slacks, "slacks of direction {direction} of {model:?}");
            assert!(bounds.is_untouched_beside() && slacks.is_untouched_beside());
            Some(envelope)
        }
    }
}

/// bound - slack of each step.
fn certain(envelope: &Envelope) -> Vec<i64> {
    envelope.bounds.iter().zip(&envelope.slacks).map(|(bound, slack)| (bound - slack) as i64).collect()
}

/// Bound and bound - slack of step k, and the largest of each.
fn figures(envelope: &Envelope, k: usize) -> [i64; 4] {
    let certain = certain(envelope);
    let most = *envelope.bounds.iter().max().expect("step 0 at least") as i64;
    let most_certain = *certain.iter().max().expect("step 0 at least");
    [envelope.bounds[k] as i64, certain[k], most, most_certain]
}

/// A level at a figure of the envelope or one count beside it, or an extreme one.
fn level(random: &mut Random, envelope: Option<&Envelope>) -> i64 {
    match (random.below(10), envelope) {
        (0, _) | (_, None) => random.pick(&[i64::MIN, i64::MIN + 1, -1, 0, 1, i64::MAX - 1, i64::MAX]),
        (1, _) => random.bits() as i64,
        (_, Some(envelope)) => {
            let figures = figures(envelope, random.below(envelope.bounds.len()));
            random.pick(&figures) + random.between(-1, 1)
        }
    }
}

/// The records of a model with guards at and beside figures of their sweeps, or at extreme levels, and the end.
pub fn guarded_model(random: &mut Random) -> Vec<Record> {
    let mut records = open_model(random);
    records.push(end());
    let model = specification::read(&file(&records)).expect("the makers make models");
    records.pop();
    let envelopes: Vec<Option<Envelope>> =
        model.directions.iter().map(|direction| recurrence::sweep(&model, direction).ok()).collect();
    let guards = random.pick(&[0, 1, 3, 16]);
    for _ in 0..guards {
        let direction = random.below(model.directions.len());
        records.push(guard(direction as u8, level(random, envelopes[direction].as_ref())));
    }
    records.push(end());
    records
}

fn word(verdict: Verdict) -> &'static str {
    match verdict {
        Verdict::Hit(_) => "HIT",
        Verdict::Unknown(_) => "UNKNOWN",
        Verdict::Clear => "CLEAR",
    }
}

#[test]
fn every_sweep_and_every_verdict_of_random_models_is_that_of_the_specification() {
    let mut random = Random::new(20_260_701);
    let (mut grown, mut swept) = (0, 0);
    let mut verdicts = [0; 4];
    let mut sizes = [0; 7];
    let mut forms = [0; 3];
    let (mut without_input, mut fitted, mut mixed, mut drifting, mut zero) = (0, 0, 0, 0, 0);
    for _ in 0..6_000 {
        let records = guarded_model(&mut random);
        let bytes = file(&records);
        let model = specification::read(&bytes).expect("with guards too");
        sizes[model.n] += 1;
        forms[model.initial.form as usize] += 1;
        if records.iter().any(|record| (0x20..0x30).contains(&record.kind)) {
            forms[model.input.form as usize] += 1;
        } else {
            without_input += 1;
        }
        let has = |kind| records.iter().any(|record| record.kind == kind);
        fitted += usize::from(has(0x03));
        mixed += usize::from(has(0x02) && has(0x03));
        drifting += usize::from(model.drift != [0; 6]);
        zero += usize::from(has(0x05) && model.drift == [0; 6]);
        assert_eq!(list_length(&bytes), Some(model.steps + 1));
        for direction in 0..model.directions.len() {
            match compare_sweep(&bytes, &model, direction) {
                Some(_) => swept += 1,
                None => grown += 1,
            }
        }
        for number in 0..model.guards.len() {
            verdicts[match compare_judge(&bytes, &model, number) {
                Ok(Verdict::Hit(_)) => 0,
                Ok(Verdict::Unknown(_)) => 1,
                Ok(Verdict::Clear) => 2,
                Err(_) => 3,
            }] += 1;
        }
    }
    println!("swept {swept}, grown {grown}, HIT UNKNOWN CLEAR growth {verdicts:?}, n {sizes:?}, forms {forms:?}, no input {without_input}");
    println!("fitted rows in {fitted} models, beside scaled ones in {mixed}; a drift in {drifting}, a record of zeros in {zero}");
    assert!(swept > 10_000 && grown > 2_000, "both come often");
    assert!(verdicts.iter().all(|count| *count > 800), "each verdict comes often");
    assert!(sizes[1..].iter().all(|count| *count > 800) && forms.iter().all(|count| *count > 3_000) && without_input > 800);
    assert!(fitted > 2_000 && mixed > 600, "fitted rows come often, alone and mixed");
    assert!(drifting > 2_000 && zero > 100, "drifts come often, and some are zero");
}

#[test]
fn levels_at_the_figures_of_a_sweep_and_one_count_to_both_sides_of_each() {
    // Beside the comparison with the specification in Rust: what a verdict has to be follows from where its guard stands.
    let mut random = Random::new(202_609);
    let mut seen = BTreeMap::new();
    let (mut with_slack, mut between) = (0, 0);
    for _ in 0..4_000 {
        let mut records = open_model(&mut random);
        records.push(end());
        let model = specification::read(&file(&records)).expect("a model");
        records.pop();
        let direction = random.below(model.directions.len());
        let Ok(envelope) = recurrence::sweep(&model, &model.directions[direction]) else {
            continue;
        };
        let k = random.below(model.steps + 1);
        let four = figures(&envelope, k);
        let beside = four.into_iter().flat_map(|figure| [figure - 1, figure, figure + 1]);
        let levels = beside.chain([i64::MIN, i64::MIN + 1, i64::MAX - 1, i64::MAX]);
        records.extend(levels.map(|one| guard(direction as u8, one)));
        records.push(end());

        let bytes = file(&records);
        let model = specification::read(&bytes).expect("with sixteen guards");
        let verdict = |number| compare_judge(&bytes, &model, number).expect("no growth");
        // Of each figure three: one count lower, at it, one count higher.
        let [bound, sure, most, most_sure] = std::array::from_fn(|f| [0, 1, 2].map(|side| verdict(3 * f + side)));
        let [bound_k, sure_k, largest, largest_sure] = four;
        let ends = [12, 13, 14, 15].map(verdict);
        assert_eq!(ends, [Verdict::Hit(0), Verdict::Hit(0), Verdict::Clear, Verdict::Clear]);

        assert_ne!(bound[0], Verdict::Clear);
        assert!(bound[1..].iter().all(|said| ![Verdict::Hit(k), Verdict::Unknown(k)].contains(said)), "{bound:?} at step {k}");
        assert!(matches!(sure[0], Verdict::Hit(step) if step <= k), "{sure:?} at step {k}");
        assert!(sure[1..].iter().all(|said| *said != Verdict::Hit(k)), "{sure:?} at step {k}");
        assert_ne!(most[0], Verdict::Clear);
        assert_eq!(most[1..], [Verdict::Clear; 2]);
        let first = certain(&envelope).iter().position(|value| *value == largest_sure).expect("it is one of them");
        assert_eq!(most_sure[0], Verdict::Hit(first));
        assert!(most_sure[1..].iter().all(|said| word(*said) != "HIT"), "{most_sure:?}");
        assert_eq!(most_sure[1] == Verdict::Clear, largest == largest_sure, "UNKNOWN just where a bound is larger");

        with_slack += usize::from(bound_k > sure_k);
        between += usize::from(largest > largest_sure + 1);
        for (figure, three) in [bound, sure, most, most_sure].into_iter().enumerate() {
            for (side, said) in three.into_iter().enumerate() {
                *seen.entry((figure, side, word(said))).or_insert(0) += 1;
            }
        }
    }
    println!("slack at the step in {with_slack}, two counts and more between the largest figures in {between}: {seen:?}");
    assert!(with_slack > 1_000 && between > 500, "both come often: {with_slack} and {between}");
    // 2 + 3 + 3 verdicts at and beside a bound, 1 + 3 + 3, 2 + 1 + 1 and 1 + 2 + 2.
    assert!(seen.len() == 24 && seen.values().all(|count| *count > 20), "each comes often: {seen:?}");
}

#[test]
fn one_vertex_more_makes_the_larger_of_two_supports_and_one_generator_more_adds_a_magnitude() {
    // The matrix is zero and K is 1, so that r(1) is 0 and no r is rounded: the bound of step 0 is the support of the initial set
    // at the direction, that of step 1 is the input set's.
    let mut random = Random::new(202_604);
    let mut seen = BTreeMap::new();
    for _ in 0..1_500 {
        let mut records = open_model(&mut random);
        records.push(end());
        let mut whole = specification::read(&file(&records)).expect("a model");
        (whole.steps, whole.matrix, whole.drift) = (1, [[0; 6]; 6], [0; 6]);
        for (step, set) in [&whole.initial, &whole.input].into_iter().enumerate().filter(|(_, set)| set.form != Form::Box) {
            for (number, direction) in whole.directions.iter().enumerate() {
                let mut support = 0;
                for (place, point) in set.points.iter().enumerate() {
                    let product = direction.iter().zip(point).map(|(d, x)| i64::from(*d) * i64::from(*x)).sum::<i64>();
                    if place > 0 {
                        *seen.entry((step, set.form as u8, product.cmp(&0), product.cmp(&support))).or_insert(0) += 1;
                    }
                    support = match set.form {
                        _ if place == 0 => product,
                        Form::Zonotope => support + product.abs(),
                        _ => support.max(product),
                    };
                    if place == 0 && set.form == Form::Zonotope {
                        continue; // a centre alone is no set
                    }
                    let mut model = whole.clone();
                    [&mut model.initial, &mut model.input][step].points.truncate(place + 1);
                    let (mut bounds, mut slacks) = ([0; 2], [0; 2]);
                    sweep(&file(&of_model(&model)), number, &mut bounds, &mut slacks).expect("no growth");
                    assert_eq!((bounds[step], slacks), (support, [0, 0]), "direction {number} of {model:?}");
                }
            }
        }
    }
    // For both sets and both forms a product of each sign is smaller than the support so far, equal to it and larger.
    assert!(seen.len() == 2 * 2 * 3 * 3 && seen.values().all(|count| *count > 20), "each comes often: {seen:?}");
}

#[test]
fn every_number_of_steps_is_swept_to_its_end() {
    let mut random = Random::new(77);
    for steps in 0..=256u16 {
        let mut records = open_model(&mut random);
        records[0].body[1..].copy_from_slice(&steps.to_le_bytes());
        records.push(end());
        let bytes = file(&records);
        let model = specification::read(&bytes).expect("a model");
        assert_eq!(model.steps, if steps == 0 { 120 } else { usize::from(steps) });
        compare_sweep(&bytes, &model, 0);
    }
}

#[test]
fn a_call_leaves_nothing_behind_for_the_next() {
    let mut random = Random::new(5);
    let files: Vec<Vec<u8>> = (0..40)
        .map(|_| {
            let mut records = open_model(&mut random);
            records.push(end());
            file(&records)
        })
        .collect();
    for _ in 0..400 {
        let bytes = random.pick(&files);
        let model = specification::read(&bytes).expect("a model");
        let direction = random.below(model.directions.len());
        compare_sweep(&bytes, &model, direction);
    }
}

#[test]
fn calls_from_several_threads_do_not_disturb_each_other() {
    let threads: Vec<_> = (0..4)
        .map(|seed| {
            std::thread::spawn(move || {
                let mut random = Random::new(seed);
                for _ in 0..100 {
                    let mut records = open_model(&mut random);
                    records.push(end());
                    let bytes = file(&records);
                    let model = specification::read(&bytes).expect("a model");
                    compare_sweep(&bytes, &model, 0);
                }
            })
        })
        .collect();
    for thread in threads {
        thread.join().expect("no comparison fails");
    }
}
