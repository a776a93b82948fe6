//! Entries beyond n: zero in every record of a model, and refused by 16 where they are anything else (File 7, Refusals 16).

use crate::lent::Lent;
use crate::makers::{entries_in, model, place_with_entries, put_entry, put_rubbish, Random, NO_ENTRIES, SIGN};
use pepperscarp::{judge, listing, sweep, Refusal, LISTING_ROOM};
use support::listing::{of_file, text};
use support::records::{end, file, fitted, guard, head, numbers, row, Record};
use support::specification;

/// Each kind with six entries.
const KINDS: [u8; 14] = [0x02, 0x03, 0x05, 0x10, 0x11, 0x12, 0x13, 0x14, 0x20, 0x21, 0x22, 0x23, 0x24, 0x30];
const HALF: u64 = 0x3FE0_0000_0000_0000;

/// A model of n coordinates in which each kind but those of other forms stands: the sets are in the form that has this kind.
fn with_kind(n: usize, kind: u8) -> Vec<Record> {
    let some = |kind| numbers(kind, &[3; 6][..n]);
    let mut records = vec![head(n as u8, 1)];
    records.extend((0..n).map(|i| match kind {
        0x03 => fitted(i as u8, &[HALF; 6][..n]),
        _ => row(i as u8, &[7; 6][..n]),
    }));
    records.push(some(0x05));
    for family in [0x10, 0x20] {
        records.extend(match kind & 0x0F {
            2 | 3 => vec![some(family + 2), some(family + 3), some(family + 3)],
            4 => vec![some(family + 4), some(family + 4)],
            _ => vec![some(family), some(family + 1)],
        });
    }
    records.extend([some(0x30), some(0x30), guard(0, 1), end()]);
    records
}

/// The places of the records of a kind, with their offsets.
fn offsets(records: &[Record], kind: u8) -> Vec<(usize, usize)> {
    let mut at = 0;
    let mut found = Vec::new();
    for (place, record) in records.iter().enumerate() {
        if record.kind == kind {
            found.push((place, at));
        }
        at += 1 + record.body.len();
    }
    found
}

/// Both calls refuse the file by 16 at this offset, and the lists keep every element.
fn assert_16(records: &[Record], offset: usize, about: &str) {
    let bytes = file(records);
    let refused = Refusal::File { number: 16, offset };
    assert_eq!(specification::read(&bytes).map(|_| ()), Err(refused), "{about}");
    let (mut bounds, mut slacks) = (Lent::new(2), Lent::new(2));
    assert_eq!(sweep(&bytes, 0, bounds.part(), slacks.part()), Err(refused), "{about}");
    assert_eq!(judge(&bytes, 0, bounds.part(), slacks.part()), Err(refused), "{about}");
    assert!(bounds.is_untouched() && slacks.is_untouched());
}

/// The number and the offset by which a file is refused.
fn refusal(bytes: &[u8]) -> Option<(u8, usize)> {
    match sweep(bytes, 0, &mut [0; 2], &mut [0; 2]) {
        Ok(_) => None,
        Err(Refusal::File { number, offset }) => Some((number, offset)),
        Err(other) => panic!("{other}"),
    }
}

#[test]
fn each_column_beyond_n_of_each_record_of_each_kind_is_tested() {
    let mut cases = 0;
    for n in 1..=5 {
        for kind in KINDS {
            let records = with_kind(n, kind);
            assert_eq!(refusal(&file(&records)), None, "n {n}, kind {kind:02X}");
            for (place, offset) in offsets(&records, kind) {
                for column in n..6 {
                    let numbers: Vec<u64> = match kind {
                        0x03 => NO_ENTRIES.into_iter().chain([1, SIGN | 1, 1 << 32, HALF, SIGN | HALF]).collect(),
                        _ => [1, -1, 256, 1 << 16, 1 << 24, i32::MIN, i32::MAX].map(|entry: i32| entry as u64).to_vec(),
                    };
                    for bits in numbers {
                        let mut changed = records.clone();
                        put_entry(&mut changed[place], column, bits);
                        assert_16(&changed, offset, &format!("n {n}, kind {kind:02X}, column {column}, {bits:X}"));
                        cases += 1;
                    }
                }
            }
        }
    }
    assert!(cases > 2_000, "{cases}");
}

#[test]
fn each_bit_of_an_entry_beyond_n_counts_but_the_sign_of_a_fitted_zero() {
    for kind in KINDS {
        let records = with_kind(2, kind);
        let (place, offset) = offsets(&records, kind)[0];
        let (_, size) = entries_in(kind).expect("entries");
        for (column, bit) in (2..6).flat_map(|column| (0..8 * size).map(move |bit| (column, bit))) {
            let mut changed = records.clone();
            put_entry(&mut changed[place], column, 1 << bit);
            if (kind, bit) == (0x03, 63) {
                assert_eq!(refusal(&file(&changed)), None);
            } else {
                assert_16(&changed, offset, &format!("kind {kind:02X}, column {column}, bit {bit}"));
            }
        }
    }
}

#[test]
fn negative_zeros_beyond_n_change_no_byte_of_a_listing() {
    let mut out = vec![0; LISTING_ROOM];
    for n in 1..=5 {
        let plain = with_kind(n, 0x03);
        let expected = text(of_file::<i128>(&file(&plain)));
        assert!(expected.starts_with(&format!("model {n} 1\n")));
        for signs in 0..1 << (6 - n) {
            let mut changed = plain.clone();
            for (place, _) in offsets(&plain, 0x03) {
                for column in (n..6).filter(|column| signs >> (column - n) & 1 == 1) {
                    put_entry(&mut changed[place], column, SIGN);
                }
            }
            assert_eq!(listing(&file(&changed), &mut out), Some(expected.as_bytes()));
        }
    }
}

#[test]
fn it_comes_before_the_row_number_and_all_other_values() {
    for n in 1..=5 {
        for kind in KINDS {
            let records = with_kind(n, kind);
            let (place, offset) = offsets(&records, kind)[0];
            let (own, wrong) = match kind {
                0x02 => (5, 131_073),
                0x03 => (15, NO_ENTRIES[6]),
                0x05 => (17, 1_048_577),
                0x30 => (7, 1_001),
                _ => (6, 1_048_577),
            };
            let mut spoilt = vec![records.clone()];
            put_entry(&mut spoilt[0][place], n - 1, wrong);
            assert_eq!(refusal(&file(&spoilt[0])), Some((own, offset)), "n {n}, kind {kind:02X}");
            if kind < 0x05 {
                for number in [1, 6, 255] {
                    let mut changed = records.clone();
                    changed[place].body[0] = number;
                    assert_eq!(refusal(&file(&changed)), Some((5, offset)));
                    spoilt.push(changed);
                }
            }
            if kind == 0x30 {
                let mut changed = records.clone();
                changed[place] = numbers(0x30, &[]);
                assert_eq!(refusal(&file(&changed)), Some((7, offset)));
                spoilt.push(changed);
            }
            for column in n..6 {
                for changed in &spoilt {
                    let mut changed = changed.clone();
                    put_entry(&mut changed[place], column, 1);
                    assert_16(&changed, offset, &format!("n {n}, kind {kind:02X}, column {column}"));
                }
            }
        }
    }
    // Crossed corners (6), and the sum of reach and drift (17).
    let start = [head(1, 1), row(0, &[0]), numbers(0x05, &[1_048_576]), numbers(0x14, &[0])];
    for (points, own) in [(vec![numbers(0x20, &[0]), numbers(0x21, &[-1])], 6), (vec![numbers(0x24, &[1])], 17)] {
        let mut records = [&start[..], &points].concat();
        let offset = file(&records[..records.len() - 1]).len();
        assert_eq!(refusal(&file(&records)), Some((own, offset)));
        put_entry(records.last_mut().expect("a point"), 1, 1);
        assert_16(&records, offset, "before 6 and 17");
    }
}

#[test]
fn body_place_and_count_come_before_it() {
    for n in 1..=5 {
        for kind in KINDS {
            let mut records = with_kind(n, kind);
            let (place, offset) = offsets(&records, kind)[0];
            put_entry(&mut records[place], n, 1);
            let bytes = file(&records);
            for length in 1..1 + records[place].body.len() {
                assert_eq!(refusal(&bytes[..offset + length]), Some((1, offset)), "kind {kind:02X}");
            }
            // Before the head, and behind the guard.
            let stray = records[place].clone();
            assert_eq!(refusal(&file(&[&[stray.clone()], &records[..]].concat())), Some((3, 0)));
            let good = with_kind(n, kind);
            let behind = good.len() - 1;
            let late = [&good[..behind], &[stray], &good[behind..]].concat();
            assert_eq!(refusal(&file(&late)), Some((3, file(&good[..behind]).len())));
        }
        for (kind, most) in [(0x13, 8), (0x14, 16), (0x23, 8), (0x24, 16), (0x30, 16)] {
            let records = with_kind(n, kind);
            let (place, at) = offsets(&records, kind)[0];
            let mut wrong = records[place].clone();
            put_entry(&mut wrong, 5, u64::MAX);
            for (count, number) in [(most, 9), (most - 1, 16)] {
                let right = vec![numbers(kind, &[1; 6][..n]); count];
                let bytes = file(&[&records[..place], &right, &[wrong.clone()]].concat());
                assert_eq!(refusal(&bytes), Some((number, at + 25 * count)), "kind {kind:02X}, {count} before it");
            }
        }
    }
}

#[test]
fn nothing_lies_beyond_n_where_n_is_6() {
    for kind in KINDS {
        assert_eq!(refusal(&file(&with_kind(6, kind))), None);
    }
}

#[test]
fn random_models_have_zeros_beyond_n_and_rubbish_in_any_of_their_records_is_told_there() {
    let mut random = Random::new(202_607);
    let mut seen = [0; 256];
    let (mut plus, mut minus) = (0, 0);
    let mut told = 0;
    while told < 20_000 {
        let mut records = model(&mut random);
        let read = specification::read(&file(&records)).expect("a model");
        if read.n == 6 {
            continue;
        }
        for record in &records {
            let Some((first, size)) = entries_in(record.kind) else { continue };
            for entry in record.body[first..].chunks_exact(size).skip(read.n) {
                let (last, others) = entry.split_last().expect("bytes");
                assert!(others.iter().all(|byte| *byte == 0) && (*last == 0 || (record.kind, *last) == (0x03, 0x80)));
                plus += usize::from(record.kind == 0x03 && *last == 0);
                minus += usize::from(*last == 0x80);
            }
        }
        let place = place_with_entries(&mut random, &records);
        put_rubbish(&mut random, &mut records[place], read.n);
        let offset = file(&records[..place]).len();
        assert_16(&records, offset, "a random model");
        seen[usize::from(records[place].kind)] += 1;
        told += 1;
    }
    assert!(KINDS.iter().all(|kind| seen[usize::from(*kind)] > 300), "each kind comes often");
    assert!(plus > 10_000 && minus > 10_000, "zeros of either sign come often: {plus} and {minus}");
}
