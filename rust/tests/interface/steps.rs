//! One step: what is left and answered is the specification's, and on 11 r and e are as they were.

use crate::lent::Lent;
use crate::makers::Random;
use pepperscarp::{step, Refusal};
use support::recurrence;

const GROWTH_LIMIT: i64 = 1_073_741_824;

/// One step through the interface is the specification's. Whether it was taken.
fn compare(n: usize, matrix: &[i32; 36], r: &[i64; 6], e: &[i64; 6]) -> bool {
    let (mut r_lent, mut e_lent) = (Lent::with(r), Lent::with(e));
    let answer = {
        let r: &mut [i64; 6] = r_lent.part().try_into().expect("six");
        let e: &mut [i64; 6] = e_lent.part().try_into().expect("six");
        step(n, matrix, r, e)
    };
    assert!(r_lent.is_untouched_beside() && e_lent.is_untouched_beside());
    match recurrence::step(n, matrix, r, e) {
        None => {
            assert_eq!(answer, Err(Refusal::Invalid), "n {n}, matrix {matrix:?}, r {r:?}, e {e:?}");
            assert_eq!((r_lent.now(), e_lent.now()), (&r[..], &e[..]));
            false
        }
        Some((left, sum)) => {
            let wide = |lent: &Lent| -> Vec<i128> { lent.now().iter().map(|value| i128::from(*value)).collect() };
            assert_eq!(answer.map(i128::from), Ok(sum), "n {n}, matrix {matrix:?}, r {r:?}, e {e:?}");
            assert_eq!(
                (wide(&r_lent), wide(&e_lent)),
                (left.r.to_vec(), left.e.to_vec()),
                "n {n}, matrix {matrix:?}, r {r:?}, e {e:?}"
            );
            true
        }
    }
}

/// A valid step: its growth sum is within the limit, sometimes exactly at it.
fn valid(random: &mut Random) -> (usize, [i32; 36], [i64; 6], [i64; 6]) {
    let n = 1 + random.below(6);
    let most = random.pick(&[1, 1_000, 65_536, 131_072]);
    let edge = random.one_in(3);
    let (mut matrix, mut r, mut e) = ([0; 36], [0; 6], [0; 6]);
    for p in 0..n {
        for i in 0..n {
            matrix[6 * p + i] = (if edge { random.pick(&[-most, most, 0]) } else { random.between(-most, most) }) as i32;
        }
        let room = random.pick(&[0, 1, 70_000, GROWTH_LIMIT, GROWTH_LIMIT]);
        let size = random.between(0, room);
        let size = if random.one_in(3) { room } else { size };
        r[p] = if random.one_in(2) { size } else { -size };
        // Errors count half units: two to a unit, or one fewer.
        let most = (2 * (room - size) - random.between(0, 1)).max(0);
        e[p] = if random.one_in(2) { most } else { random.between(0, most) };
    }
    (n, matrix, r, e)
}

#[test]
fn random_steps_are_those_of_the_specification() {
    let mut random = Random::new(31);
    for _ in 0..200_000 {
        let (n, matrix, r, e) = valid(&mut random);
        assert!(compare(n, &matrix, &r, &e), "a valid step is taken");
    }
}

#[test]
fn a_step_at_a_half_or_beside_it_goes_to_the_nearest() {
    let mut matrix = [0; 36];
    matrix[0] = 1;
    for halves in -99..=99 {
        let at = (halves + 1i64).div_euclid(2);
        let odd = i64::from(halves % 2 != 0);
        for (beside, next, error) in [(-1, at - odd, 1), (0, at, odd), (1, at, 1)] {
            let (mut r, mut e) = ([32_768 * halves + beside, 0, 0, 0, 0, 0], [0; 6]);
            assert!(compare(1, &matrix, &r, &e));
            step(1, &matrix, &mut r, &mut e).expect("small");
            assert_eq!((r[0], e[0]), (next, error), "{halves} halves and {beside}");
        }
    }
}

#[test]
fn the_largest_step_there_is_is_taken_exactly() {
    for sign in [1, -1] {
        for (r, e) in [(GROWTH_LIMIT, 0), (0, 2 * GROWTH_LIMIT), (1, 2 * GROWTH_LIMIT - 2), (-GROWTH_LIMIT, 0)] {
            assert!(compare(6, &[sign * 131_072; 36], &[r; 6], &[e; 6]));
        }
    }
}

#[test]
fn steps_with_one_broken_rule_are_refused_by_11_and_change_nothing() {
    let mut random = Random::new(32);
    let mut refused = [0; 6];
    for _ in 0..200_000 {
        let (mut n, mut matrix, mut r, mut e) = valid(&mut random);
        let case = random.below(6);
        let place = random.below(6);
        match case {
            0 => n = random.pick(&[0, 7, 8, 255, 256, usize::MAX, 1 << 32, (1 << 32) + n]),
            1 => matrix[random.below(36)] = random.pick(&[131_073, -131_073, i32::MIN, i32::MAX, 131_072, 1]),
            2 => r[place] = random.pick(&[GROWTH_LIMIT + 1, -GROWTH_LIMIT - 1, i64::MIN, i64::MAX, 1, -1]),
            3 => e[place] = random.pick(&[-1, i64::MIN, i64::MAX, 2 * GROWTH_LIMIT + 1, 1]),
            4 => {
                let size = random.between(0, GROWTH_LIMIT);
                r[place] = if random.one_in(2) { size } else { -size };
                e[place] = 2 * (GROWTH_LIMIT - size) + random.between(0, 2);
            }
            _ => {
                n = 1 + random.below(6);
                matrix[random.below(36)] = 1;
            }
        }
        refused[case] += usize::from(!compare(n, &matrix, &r, &e));
    }
    println!("refused by case: {refused:?}");
    assert!(refused.iter().all(|count| *count > 5_000));
}

#[test]
fn steps_of_any_values_at_all_get_the_reply_of_the_specification() {
    let mut random = Random::new(33);
    for _ in 0..100_000 {
        let n = random.below(9);
        let mut matrix = [0; 36];
        let (mut r, mut e) = ([0; 6], [0; 6]);
        for entry in &mut matrix {
            *entry = (random.bits() as i32) >> random.below(32);
        }
        for i in 0..6 {
            r[i] = (random.bits() as i64) >> random.below(64);
            e[i] = (random.bits() as i64) >> random.below(64);
        }
        compare(n, &matrix, &r, &e);
    }
}
