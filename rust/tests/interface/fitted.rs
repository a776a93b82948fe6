//! Fitted rows: what each entry becomes, seen in bounds, and what is refused, in which order.
//!
//! With one step, no input set and the vertex that is 65,536 in coordinate i and zero elsewhere, the bound of direction p at step 1
//! is the matrix entry in row p and column i.

use crate::makers::{near, Random, NO_ENTRIES, SIGN};
use pepperscarp::{listing, sweep, Refusal, LISTING_ROOM};
use support::listing::{of_file, text};
use support::records::{end, file, fitted, head, numbers, row, Record};
use support::specification::fitted_entry;

const TWO: u64 = 0x4000_0000_0000_0000;
const HALF: u64 = 0x3FE0_0000_0000_0000;
/// A quiet NaN.
const NAN: u64 = NO_ENTRIES[6];
/// What each column counts in a bound at step 1: no two alike, so that an entry that is wrong or in another's column shows.
const WEIGHTS: [i32; 6] = [1, -2, 3, -5, 7, -11];

/// The places in a file of six fitted rows: the entry in row p and column i, and coordinate i of the vertex.
fn entry_at(p: usize, i: usize) -> usize {
    4 + 50 * p + 2 + 8 * i
}

fn vertex_at(i: usize) -> usize {
    4 + 50 * 6 + 1 + 4 * i
}

/// A model with these rows, 65,536 times the weights as its vertex, and a direction for each coordinate.
fn model(rows: &[Record]) -> Vec<u8> {
    let n = rows.len();
    let mut records = vec![head(n as u8, 1)];
    records.extend_from_slice(rows);
    records.push(numbers(0x14, &WEIGHTS.map(|weight| 65_536 * weight)[..n]));
    for p in 0..n {
        let mut unit = [0; 6];
        unit[p] = 1;
        records.push(numbers(0x30, &unit));
    }
    records.push(end());
    file(&records)
}

/// A file of six fitted rows, whose patterns are put in place one by one.
struct Six(Vec<u8>);

impl Six {
    fn new() -> Six {
        Six(model(&[0, 1, 2, 3, 4, 5].map(|number| fitted(number, &[HALF; 6]))))
    }

    fn put(&mut self, p: usize, i: usize, bits: u64) {
        self.0[entry_at(p, i)..][..8].copy_from_slice(&bits.to_le_bytes());
    }

    fn look_at(&mut self, column: usize) {
        for i in 0..6 {
            let coordinate = if i == column { 65_536i32 } else { 0 };
            self.0[vertex_at(i)..][..4].copy_from_slice(&coordinate.to_le_bytes());
        }
    }

    /// Bound of direction p at step 1.
    fn seen(&self, p: usize) -> Result<i64, Refusal> {
        let (mut bounds, mut slacks) = ([0; 2], [0; 2]);
        sweep(&self.0, p, &mut bounds, &mut slacks)?;
        assert_eq!(slacks, [0, 0], "nothing else is rounded");
        Ok(bounds[1])
    }
}

/// The patterns, each an entry, become what the specification says, seen one by one; 36 to a file.
fn compare_accepted(six: &mut Six, patterns: &[u64]) {
    for some in patterns.chunks(36) {
        for (place, bits) in some.iter().enumerate() {
            six.put(place / 6, place % 6, *bits);
        }
        for column in 0..6 {
            six.look_at(column);
            for (place, bits) in some.iter().enumerate().filter(|(place, _)| place % 6 == column) {
                let expected = fitted_entry(f64::from_bits(*bits)).map(i64::from).expect("an entry");
                assert_eq!(six.seen(place / 6), Ok(expected), "{bits:016X}");
            }
        }
    }
}

/// Each pattern, put in turn in each row and column, is refused by 15 at its row.
fn compare_refused(six: &mut Six, patterns: &[u64]) {
    for (number, bits) in patterns.iter().enumerate() {
        let (p, i) = (number / 6 % 6, number % 6);
        six.put(p, i, *bits);
        let at = entry_at(p, 0) - 2;
        assert_eq!(six.seen(number % 5), Err(Refusal::File { number: 15, offset: at }), "{bits:016X}");
        six.put(p, i, HALF);
    }
}

#[test]
fn a_million_patterns_become_what_floating_point_arithmetic_says() {
    let mut random = Random::new(202_605);
    let mut patterns: Vec<u64> = (0..250_000).map(|_| random.bits()).collect();
    // Around each tie and each whole entry up to 2 that is drawn, and anywhere from -2 to 2.
    for _ in 0..60_000 {
        let tie = (random.between(0, 131_071) as f64 + random.pick(&[0.0, 0.5])) / 65_536.0;
        let bits = tie.to_bits().max(1);
        patterns.extend([bits, bits - 1, bits + 1].into_iter().flat_map(|bits| [bits, bits | SIGN]));
    }
    for _ in 0..250_000 {
        let entry = random.between(-131_072, 131_072) as i32;
        patterns.push(near(&mut random, entry));
    }
    for _ in 0..140_000 {
        patterns.push(random.below(TWO as usize + 1) as u64 | random.pick(&[0, SIGN]));
    }
    assert_eq!(patterns.len(), 1_000_000);
    let (accepted, refused): (Vec<u64>, Vec<u64>) =
        patterns.into_iter().partition(|bits| fitted_entry(f64::from_bits(*bits)).is_some());
    println!("{} become entries, {} are refused", accepted.len(), refused.len());
    assert!(accepted.len() > 800_000 && refused.len() > 100_000, "both come often");
    let mut six = Six::new();
    compare_accepted(&mut six, &accepted);
    compare_refused(&mut Six::new(), &refused);
}

#[test]
fn zeros_and_the_tiniest_numbers_become_0() {
    let single = (0..52).map(|bit| 1 << bit);
    let below = (0..=52).map(|bit| (1 << bit) - 1);
    let tiny: Vec<u64> = single.chain(below).flat_map(|bits| [bits, bits | SIGN]).collect();
    assert!(tiny.iter().all(|bits| fitted_entry(f64::from_bits(*bits)) == Some(0)));
    compare_accepted(&mut Six::new(), &tiny);
}

#[test]
fn two_is_accepted_and_all_beyond_it_infinities_and_nans_are_refused_by_15() {
    let right: Vec<u64> = [TWO, TWO - 1, HALF].into_iter().flat_map(|bits| [bits, bits | SIGN]).collect();
    compare_accepted(&mut Six::new(), &right);
    let payloads = (0..52).map(|bit| 0x7FF0_0000_0000_0000 | 1 << bit);
    let above = (0..52).map(|bit| TWO | 1 << bit);
    let wrong: Vec<u64> = NO_ENTRIES.into_iter().chain(payloads).chain(above).flat_map(|bits| [bits, bits | SIGN]).collect();
    compare_refused(&mut Six::new(), &wrong);
}

#[test]
fn the_body_is_tested_before_the_number_and_the_number_before_the_entries() {
    let reply = |bytes: &[u8]| sweep(bytes, 0, &mut [0; 2], &mut [0; 2]).map_err(Refusal::number);
    let row_and = |second: Record| model(&[row(0, &[1, 2]), second]);
    for wrong in NO_ENTRIES {
        for number in [0, 2, 6, 255] {
            assert_eq!(reply(&row_and(fitted(number, &[HALF, wrong]))), Err(5));
            let bytes = file(&[head(2, 1), row(0, &[1, 2]), fitted(number, &[wrong])]);
            for length in 30..bytes.len() {
                assert_eq!(reply(&bytes[..length]), Err(1));
            }
        }
        let refused = sweep(&row_and(fitted(1, &[HALF, wrong])), 0, &mut [0; 2], &mut [0; 2]);
        assert_eq!(refused, Err(Refusal::File { number: 15, offset: 30 }));
        // Beyond n they are refused by 16, before the number and the entries.
        for number in [0, 1, 2, 255] {
            assert_eq!(reply(&row_and(fitted(number, &[HALF, TWO, wrong]))), Err(16));
            assert_eq!(reply(&row_and(fitted(number, &[HALF, wrong, 0, 0, 0, wrong]))), Err(16));
        }
    }
    // A scaled row behind a fitted one is held to its number too.
    assert_eq!(reply(&model(&[fitted(0, &[HALF]), row(0, &[1, 2])])), Err(5));
    // Another row than the n there are.
    let beyond = file(&[head(1, 1), fitted(0, &[HALF]), fitted(1, &[NAN])]);
    assert_eq!(sweep(&beyond, 0, &mut [0; 2], &mut [0; 2]), Err(Refusal::File { number: 3, offset: 54 }));
}

#[test]
fn either_zero_beyond_n_is_listed_as_the_other_and_all_else_is_refused_by_16() {
    let mut random = Random::new(27);
    let mut out = vec![0; LISTING_ROOM];
    for n in 1..=5 {
        for _ in 0..200 {
            let (mut plain, mut signed) = (Vec::new(), Vec::new());
            for number in 0..n {
                let mut patterns = [0; 6];
                for bits in &mut patterns[..n] {
                    let entry = random.between(-40_000, 40_000) as i32;
                    *bits = near(&mut random, entry);
                }
                plain.push(fitted(number as u8, &patterns));
                for bits in &mut patterns[n..] {
                    *bits = random.pick(&[0, SIGN, SIGN]);
                }
                signed.push(fitted(number as u8, &patterns));
            }
            let expected = text(of_file::<i128>(&model(&plain)));
            assert!(expected.starts_with("model "), "none is refused");
            assert_eq!(listing(&model(&plain), &mut out), Some(expected.as_bytes()));
            assert_eq!(listing(&model(&signed), &mut out), Some(expected.as_bytes()));
            // One bit in one column, beside a sign or none, or what is no number.
            let (number, column) = (random.below(n), n + random.below(6 - n));
            for bits in [1 << random.below(63), random.pick(&NO_ENTRIES), 1, (random.bits() >> 1).max(1)] {
                let mut bytes = model(&signed);
                bytes[4 + 50 * number + 2 + 8 * column..][..8].copy_from_slice(&(bits | random.pick(&[0, SIGN])).to_le_bytes());
                let expected = format!("refused 16 at {}\n", 4 + 50 * number);
                assert_eq!(listing(&bytes, &mut out), Some(expected.as_bytes()));
            }
        }
    }
}

#[test]
fn scaled_and_fitted_rows_in_every_mixture_give_the_same_listing() {
    let mut out = vec![0; LISTING_ROOM];
    let entries = |number: usize| [0, 1, 2].map(|i| 7_001 * (number as i32 + 1) - 9_000 * i);
    let mut texts = Vec::new();
    for mixture in 0..8 {
        let rows = [0, 1, 2].map(|number| {
            let entries = entries(number);
            if mixture >> number & 1 == 0 {
                return row(number as u8, &entries);
            }
            // A little beside each entry, and for the even ones at a tie.
            let beside = |entry: i32| f64::from(entry) + if entry % 2 == 0 { 0.5 } else { -0.49 };
            fitted(number as u8, &entries.map(|entry| (beside(entry) / 65_536.0).to_bits()))
        });
        let bytes = model(&rows);
        texts.push(listing(&bytes, &mut out).expect("room").to_vec());
        assert_eq!(texts[mixture], text(of_file::<i128>(&bytes)).as_bytes());
    }
    assert!(texts[0].starts_with(b"model 3 1\n") && texts.iter().all(|text| *text == texts[0]));
}
