//! Figures 1 to 14, 16 to 27 and 30 to 32 of the specification, as far as the interface shows them, its sample (Listing 8), more
//! levels at and beside bounds, worked out by hand, and the listings in examples/. Figures 33 to 36 are in `calm.rs`.

use crate::sweeps::compare_sweep;
use pepperscarp::Verdict::{Clear, Hit, Unknown};
use pepperscarp::{judge, list_length, step, sweep, Refusal, Verdict, LISTING_ROOM};
use std::path::Path;
use support::records::{end, file, fitted, guard, head, numbers, row, Record};
use support::{calls, listing, specification};

/// A model of one coordinate with boxes.
fn line(steps: u16, entry: i32, initial: [i32; 2], input: [i32; 2], direction: i32, levels: &[i64]) -> Vec<u8> {
    let mut records = vec![head(1, steps), row(0, &[entry])];
    for (kind, corner) in [(0x10, initial[0]), (0x11, initial[1]), (0x20, input[0]), (0x21, input[1])] {
        records.push(numbers(kind, &[corner]));
    }
    records.push(numbers(0x30, &[direction]));
    records.extend(levels.iter().map(|level| guard(0, *level)));
    records.push(end());
    file(&records)
}

/// The working direction of one coordinate after each of so many steps: r, e and the growth sum.
fn walked(entry: i32, direction: i64, steps: usize) -> Vec<(i64, i64, u64)> {
    let mut matrix = [0; 36];
    matrix[0] = entry;
    let (mut r, mut e) = ([0; 6], [0; 6]);
    r[0] = 1_048_576 * direction;
    let mut after = || {
        let sum = step(1, &matrix, &mut r, &mut e).expect("not beyond the limit");
        (r[0], e[0], sum)
    };
    (0..steps).map(|_| after()).collect()
}

/// The sweep of direction 0: spare figure, bounds and slacks.
fn swept(bytes: &[u8]) -> Result<(u32, Vec<i64>, Vec<i64>), Refusal> {
    let length = list_length(bytes).expect("a head");
    let (mut bounds, mut slacks) = (vec![0; length], vec![0; length]);
    let spare = sweep(bytes, 0, &mut bounds, &mut slacks)?;
    Ok((spare, bounds, slacks))
}

/// The verdicts on all guards, in order.
fn verdicts(bytes: &[u8]) -> Vec<Verdict> {
    let length = list_length(bytes).expect("a head");
    let judged = |number| judge(bytes, number, &mut vec![0; length], &mut vec![0; length]);
    (0..).map_while(|number| judged(number).ok()).collect()
}

#[test]
fn cases_1_to_3_and_30_a_sum_of_inputs_and_its_guards() {
    let bytes = line(2, 65_536, [2, 5], [-1, 1], 3, &[21, 22, 20]);
    let (_, bounds, slacks) = swept(&bytes).expect("calm");
    assert_eq!((bounds, slacks), (vec![15, 18, 21], vec![0, 0, 0]));
    assert_eq!(verdicts(&bytes), [Clear, Clear, Hit(2)]);
}

#[test]
fn case_4_the_last_fraction_of_the_bound_is_in_the_slack() {
    let (_, bounds, slacks) = swept(&line(3, 32_768, [0, 100], [0, 0], 1, &[])).expect("calm");
    assert_eq!((bounds, slacks), (vec![100, 50, 25, 13], vec![0, 0, 0, 1]));
}

#[test]
fn cases_5_and_6_a_product_of_less_than_half_a_unit_is_rounded_to_zero() {
    let (_, bounds, slacks) = swept(&line(2, 1, [0, 100], [0, 0], 1, &[])).expect("calm");
    assert_eq!((bounds, slacks), (vec![100, 1, 1], vec![0, 1, 2]));
    let (_, bounds, slacks) = swept(&line(2, 1, [0, 100], [0, 0], -1, &[])).expect("calm");
    assert_eq!((bounds, slacks), (vec![0, 0, 1], vec![0, 0, 2]));
    for direction in [1, -1] {
        assert_eq!(walked(1, direction, 2), [(16 * direction, 0, 16), (0, 1, 1)]);
    }
}

#[test]
fn cases_7_and_8_the_last_step_without_growth_and_the_first_with_it() {
    assert_eq!(swept(&line(10, 131_072, [0, 0], [0, 0], 1, &[])).expect("not yet").0, 0);
    assert_eq!(swept(&line(11, 131_072, [0, 0], [0, 0], 1, &[])), Err(Refusal::Growth(11)));
}

/// A model of two coordinates with this initial set, input zero and one direction.
fn plane(rows: [[i32; 2]; 2], initial: &[Record], direction: [i32; 2]) -> Vec<u8> {
    let mut records = vec![head(2, 1), row(0, &rows[0]), row(1, &rows[1])];
    records.extend_from_slice(initial);
    records.extend([numbers(0x20, &[0, 0]), numbers(0x21, &[0, 0]), numbers(0x30, &direction), end()]);
    file(&records)
}

/// The zonotope of cases 9 and 21.
fn zonotope() -> [Record; 3] {
    [numbers(0x12, &[1, -2]), numbers(0x13, &[3, 1]), numbers(0x13, &[-1, 2])]
}

/// The vertices of cases 10 and 22.
fn vertices() -> [Record; 3] {
    [numbers(0x14, &[0, 0]), numbers(0x14, &[4, 0]), numbers(0x14, &[0, 3])]
}

#[test]
fn cases_9_to_11_supports_as_bounds_of_step_0() {
    let corners = [numbers(0x10, &[-2, 3]), numbers(0x11, &[1, 4])];
    for (initial, direction, support) in [(&zonotope()[..], [1, 1], 4), (&vertices()[..], [1, 2], 6), (&corners[..], [-1, 1], 6)]
    {
        let (_, bounds, slacks) = swept(&plane([[0, 0], [0, 0]], initial, direction)).expect("calm");
        assert_eq!((bounds, slacks), (vec![support, 0], vec![0, 0]));
    }
}

#[test]
fn case_12_the_step_takes_the_transpose_of_the_matrix() {
    let corners = [numbers(0x10, &[0, 7]), numbers(0x11, &[1, 9])];
    let (_, bounds, _) = swept(&plane([[0, 65_536], [0, 0]], &corners, [1, 0])).expect("calm");
    assert_eq!(bounds[1], 9);
}

#[test]
fn case_13_limits_are_accepted_and_one_more_is_refused() {
    assert!(swept(&line(1, 0, [0, 0], [0, 0], 1_000, &[])).is_ok());
    assert_eq!(swept(&line(1, 0, [0, 0], [0, 0], 1_001, &[])), Err(Refusal::File { number: 7, offset: 130 }));
    assert!(swept(&line(1, 0, [0, 1_048_576], [0, 0], 1, &[])).is_ok());
    assert_eq!(swept(&line(1, 0, [0, 1_048_577], [0, 0], 1, &[])), Err(Refusal::File { number: 6, offset: 55 }));
}

#[test]
fn case_14_an_empty_file_is_refused_by_1_at_offset_0() {
    assert_eq!(sweep(&[], 0, &mut [], &mut []), Err(Refusal::File { number: 1, offset: 0 }));
    assert_eq!(judge(&[], 0, &mut [], &mut []), Err(Refusal::File { number: 1, offset: 0 }));
}

#[test]
fn the_sample_has_its_spare_figure_bounds_slacks_and_verdicts() {
    let bytes = line(3, 32_768, [0, 0], [0, 1], 1, &[1, 2, 3]);
    assert_eq!(bytes.len(), 186);
    assert_eq!(swept(&bytes), Ok((10, vec![0, 1, 2, 2], vec![0, 0, 1, 1])));
    assert_eq!(verdicts(&bytes), [Unknown(2), Clear, Clear]);
}

#[test]
fn case_31_and_others_a_level_equal_to_a_bound_or_to_bound_less_slack_is_not_reached_by_it() {
    // The sample's bound - slack is 0, 1, 1, 1. Versions before 0.8.0 gave the verdicts on 0, 1 and 2 to the levels 1, 2 and 3.
    let sample = line(3, 32_768, [0, 0], [0, 1], 1, &[-1, 0, 1, 2, 3]);
    assert_eq!(verdicts(&sample), [Hit(0), Hit(1), Unknown(2), Clear, Clear]);
    // Inputs up to 5: bound - slack is 0, 5, 7, 8.
    let rising = line(3, 32_768, [0, 0], [0, 5], 1, &[-1, 0, 4, 5, 6, 7, 8, 9, 10]);
    assert_eq!(swept(&rising), Ok((10, vec![0, 5, 8, 9], vec![0, 0, 1, 1])));
    assert_eq!(verdicts(&rising), [Hit(0), Hit(1), Hit(1), Hit(2), Hit(2), Hit(3), Unknown(3), Clear, Clear]);
    // 100 is halved, in direction -1: bound - slack is -100, -50, -25, -13.
    let lowest = line(3, 32_768, [100, 100], [0, 0], -1, &[-101, -100, -99, -51, -50, -26, -25, -14, -13, -12, -11]);
    assert_eq!(swept(&lowest), Ok((10, vec![-100, -50, -25, -12], vec![0, 0, 0, 1])));
    let by_hand = [Hit(0), Hit(1), Hit(1), Hit(1), Hit(2), Hit(2), Hit(3), Hit(3), Unknown(3), Clear, Clear];
    assert_eq!(verdicts(&lowest), by_hand);
}

#[test]
fn case_32_the_lowest_level_is_reached_by_all_and_the_highest_by_none() {
    let ends = [i64::MIN, i64::MIN + 1, i64::MAX - 1, i64::MAX];
    for (initial, direction) in [([2, 5], 3), ([-1_048_576, 1_048_576], 1_000), ([-1_048_576, -1_048_576], 1_000)] {
        let bytes = line(2, 65_536, initial, [-1, 1], direction, &ends);
        assert_eq!(verdicts(&bytes), [Hit(0), Hit(0), Clear, Clear]);
    }
}

#[test]
fn case_16_half_of_an_odd_sum_of_errors_is_rounded_up() {
    let (_, bounds, slacks) = swept(&line(2, 1, [0, 1], [0, 0], 1, &[])).expect("calm");
    assert_eq!((bounds, slacks), (vec![1, 1, 1], vec![0, 1, 2]));
    // r(2) is -1, and T is 3 or 2: the raw bound is -1 + 2, or -1 + 1.
    for (high, last) in [(3, (1, 2)), (2, (0, 1))] {
        let (_, bounds, slacks) = swept(&line(2, 32, [1, high], [0, 0], -3, &[])).expect("calm");
        assert_eq!((bounds, slacks), (vec![-3, 0, last.0], vec![0, 1, last.1]));
    }
}

#[test]
fn case_17_a_half_goes_up_whatever_its_sign() {
    let most = 1_048_576;
    let (_, bounds, slacks) = swept(&line(2, 32, [-most, 0], [0, 0], -2, &[])).expect("calm");
    assert_eq!((bounds, slacks), (vec![2_097_152, 1_024, 1], vec![0, 0, 2]));
    let (_, bounds, slacks) = swept(&line(2, 32, [0, most], [0, 0], 2, &[])).expect("calm");
    assert_eq!((bounds, slacks), (vec![2_097_152, 1_024, 2], vec![0, 0, 2]));
    // r(2) is a quarter of the direction, rounded.
    for (direction, second) in [(2, 1i64), (-2, 0), (6, 2), (-6, -1), (3, 1), (-3, -1), (1, 0), (-1, 0)] {
        assert_eq!(walked(32, direction, 2)[1], (second, 1, second.unsigned_abs() + 1));
    }
}

#[test]
fn cases_18_to_20_growth_and_the_spare_figure_count_half_of_the_errors_rounded_up() {
    let spare = |steps, entry, direction| swept(&line(steps, entry, [0, 0], [0, 0], direction, &[])).map(|swept| swept.0);
    assert_eq!(spare(15, 99_334, 2), Err(Refusal::Growth(15)));
    assert_eq!(spare(14, 99_334, 2), Ok(0));
    assert_eq!(spare(10, 99_334, 2), Ok(2));
    assert_eq!(spare(10, 99_334, 16), Ok(0));
    assert_eq!(walked(99_334, 2, 15)[14], (1_073_741_633, 884, 1_073_742_075));
    assert_eq!(walked(99_334, 2, 10)[9], (134_217_710, 108, 134_217_764));
    assert_eq!(walked(99_334, 16, 10)[9], (1_073_741_727, 108, 1_073_741_781));
    // Half of an odd e, rounded up, takes the sum past 134,217,728 by 1.
    assert_eq!(walked(66_993, 58, 36)[35], (134_217_688, 81, 134_217_729));
    assert_eq!(spare(36, 66_993, 58), Ok(2));
}

#[test]
fn cases_21_and_22_supports_with_one_point_more() {
    for (points, direction, supports) in [(zonotope(), [1, -1], [5, 8]), (vertices(), [2, 1], [8, 8])] {
        for (count, support) in [2, 3].into_iter().zip(supports) {
            let (_, bounds, slacks) = swept(&plane([[0, 0], [0, 0]], &points[..count], direction)).expect("calm");
            assert_eq!((bounds, slacks), (vec![support, 0], vec![0, 0]));
        }
    }
}

#[test]
fn case_23_fitted_entries_become_the_nearest_and_of_two_the_even_one() {
    let refused = Err(Refusal::File { number: 15, offset: 4 });
    let cases = [
        // 1.5, 2.5 and the same below 0, over 65,536: ties.
        (0x3EF8_0000_0000_0000, Ok(2)),
        (0x3F04_0000_0000_0000, Ok(2)),
        (0xBEF8_0000_0000_0000, Ok(-2)),
        (0xBF04_0000_0000_0000, Ok(-2)),
        // The next numbers above and below 2.5 / 65,536.
        (0x3F04_0000_0000_0001, Ok(3)),
        (0x3F03_FFFF_FFFF_FFFF, Ok(2)),
        // 2, -2 and the next number above 2.
        (0x4000_0000_0000_0000, Ok(131_072)),
        (0xC000_0000_0000_0000, Ok(-131_072)),
        (0x4000_0000_0000_0001, refused),
        // Both zeros, the smallest number above 0 and 0.5 / 65,536.
        (0x0000_0000_0000_0000, Ok(0)),
        (0x8000_0000_0000_0000, Ok(0)),
        (0x0000_0000_0000_0001, Ok(0)),
        (0x3EE0_0000_0000_0000, Ok(0)),
        // Both infinities and two NaNs.
        (0x7FF0_0000_0000_0000, refused),
        (0xFFF0_0000_0000_0000, refused),
        (0x7FF8_0000_0000_0000, refused),
        (0xFFF0_0000_0000_0001, refused),
    ];
    for (bits, expected) in cases {
        let vertex = numbers(0x14, &[65_536]);
        let bytes = file(&[head(1, 1), fitted(0, &[bits]), vertex, numbers(0x30, &[1]), end()]);
        assert_eq!(swept(&bytes).map(|(_, bounds, _)| bounds[1]), expected, "{bits:016X}");
    }
}

/// A model of one coordinate with boxes and a drift.
fn drifting(steps: u16, entry: i32, input: [i32; 2], direction: i32, drift: i32) -> Vec<u8> {
    let mut bytes = line(steps, entry, [0, 0], input, direction, &[]);
    // Behind the head and the row.
    bytes.splice(30..30, file(&[numbers(0x05, &[drift])]));
    bytes
}

#[test]
fn cases_24_and_25_a_drift_adds_up_in_the_direction_that_it_has() {
    for sign in [1, -1] {
        let (_, bounds, slacks) = swept(&drifting(2, 65_536, [0, 0], sign, 3 * sign)).expect("calm");
        assert_eq!((bounds, slacks), (vec![0, 3, 6], vec![0, 0, 0]));
    }
}

#[test]
fn case_26_the_limit_of_the_drift_and_of_its_sum_with_the_input_set() {
    for sign in [1, -1] {
        assert!(swept(&drifting(1, 0, [0, 0], 1, sign * 1_048_576)).is_ok());
        let beside = swept(&drifting(1, 0, [0, 1], 1, sign * 1_048_576));
        assert_eq!(beside, Err(Refusal::File { number: 17, offset: 130 }));
        let alone = swept(&drifting(1, 0, [0, 0], 1, sign * 1_048_577));
        assert_eq!(alone, Err(Refusal::File { number: 17, offset: 30 }));
    }
}

#[test]
fn case_27_the_reach_of_what_enters_is_a_sum_of_magnitudes() {
    let (_, bounds, slacks) = swept(&drifting(5, 1, [-524_288, 0], 1, 524_288)).expect("calm");
    assert_eq!(bounds, [0, 524_288, 524_296, 524_297, 524_297, 524_298]);
    assert_eq!(slacks, [0, 0, 0, 2, 2, 4]);
    let (_, bounds, slacks) = swept(&line(5, 1, [0, 0], [0, 524_288], 1, &[])).expect("calm");
    assert_eq!(bounds, [0, 524_288, 524_296, 524_297, 524_297, 524_297]);
    assert_eq!(slacks, [0, 0, 0, 2, 2, 3]);
}

#[test]
fn errors_are_rounded_up_and_the_slack_is_doubled() {
    let (_, bounds, slacks) = swept(&line(3, 3, [0, 1], [0, 0], 1, &[])).expect("calm");
    assert_eq!((bounds, slacks), (vec![1, 1, 1, 1], vec![0, 1, 2, 2]));
    let (_, bounds, slacks) = swept(&line(3, 100, [0, 600_000], [0, 0], 1, &[])).expect("calm");
    assert_eq!((bounds, slacks), (vec![600_000, 916, 2, 1], vec![0, 1, 2, 3]));
}

#[test]
fn the_calls_and_the_listing_give_the_text_of_every_example() {
    let folder = Path::new(env!("CARGO_MANIFEST_DIR")).join("../examples");
    let mut seen = 0;
    for entry in std::fs::read_dir(&folder).expect("the folder of examples") {
        let path = entry.expect("an entry").path();
        if path.extension().is_some_and(|extension| extension == "bin") {
            let bytes = std::fs::read(&path).expect("the packed model");
            let expected = std::fs::read_to_string(path.with_extension("listing")).expect("its listing");
            assert_eq!(listing::text(calls::listing(&bytes)), expected, "{}", path.display());
            let mut out = vec![0; LISTING_ROOM];
            assert_eq!(pepperscarp::listing(&bytes, &mut out), Some(expected.as_bytes()), "{}", path.display());
            let model = specification::read(&bytes).expect("a model");
            compare_sweep(&bytes, &model, 0);
            seen += 1;
        }
    }
    assert!(seen >= 10, "the examples are there");
}
