//! Listings: the text is the specification's, whole, and no byte beside it changes.

use crate::makers::{damage_bytes, damage_records, model, Random};
use crate::sweeps::guarded_model;
use pepperscarp::{list_length, listing, LISTING_ROOM};
use support::listing::{of_file, text};
use support::records::{end, file, guard, head, numbers, row};

/// A different byte at nearly each place, none of which a listing has.
fn sentinel(place: usize) -> u8 {
    0x80 | (place % 127) as u8
}

/// Room for a listing, full of sentinels.
fn room(length: usize) -> Vec<u8> {
    (0..length).map(sentinel).collect()
}

/// The listing of a file is the specification's. `out` is room with sentinels, before and after.
fn compare(bytes: &[u8], out: &mut [u8]) {
    let expected = text(of_file::<i128>(bytes));
    let length = out.len();
    assert_eq!(listing(bytes, out), Some(expected.as_bytes()), "file {bytes:02X?}");
    assert!((expected.len()..length).all(|place| out[place] == sentinel(place)), "bytes behind the text");
    for (place, byte) in out[..expected.len()].iter_mut().enumerate() {
        *byte = sentinel(place);
    }
}

#[test]
fn listings_of_random_models_are_those_of_the_specification() {
    let mut random = Random::new(41);
    let mut out = room(LISTING_ROOM);
    for _ in 0..1_500 {
        compare(&file(&guarded_model(&mut random)), &mut out);
    }
}

#[test]
fn listings_of_damaged_files_are_those_of_the_specification() {
    let mut random = Random::new(42);
    let mut out = room(LISTING_ROOM);
    for turn in 0..6_000 {
        let mut records = model(&mut random);
        if turn % 2 == 0 {
            damage_records(&mut random, &mut records);
        }
        let mut bytes = file(&records);
        if turn % 2 == 1 {
            damage_bytes(&mut random, &mut bytes);
        }
        compare(&bytes, &mut out);
    }
}

#[test]
fn a_head_that_says_0_steps_is_listed_as_one_that_says_120() {
    let mut random = Random::new(120);
    let (mut first, mut second) = (room(LISTING_ROOM), room(LISTING_ROOM));
    let (mut models, mut refused) = (0, 0);
    for turn in 0..600 {
        let mut bytes = file(&model(&mut random));
        if turn % 2 == 0 {
            damage_bytes(&mut random, &mut bytes);
        }
        if bytes.len() < 4 || bytes[0] != 0x01 {
            continue;
        }
        bytes[2..4].copy_from_slice(&[0, 0]);
        let none = (list_length(&bytes), listing(&bytes, &mut first).expect("room"));
        bytes[2] = 120;
        assert_eq!(none, (Some(121), listing(&bytes, &mut second).expect("room")));
        assert_eq!(list_length(&bytes), Some(121));
        if none.1.starts_with(b"model ") {
            models += 1;
        } else {
            refused += 1;
        }
    }
    assert!(models > 300 && refused > 100, "both come often: {models} and {refused}");
}

/// What a listing says of a refused file with the offset higher by so many bytes; of a model what it says.
fn moved(reply: &[u8], bytes: usize) -> String {
    let reply = std::str::from_utf8(reply).expect("a text");
    match reply.strip_prefix("refused ").and_then(|rest| rest.trim_end().split_once(" at ")) {
        Some((number, offset)) => format!("refused {number} at {}\n", offset.parse::<usize>().expect("an offset") + bytes),
        None => reply.to_string(),
    }
}

#[test]
fn a_file_without_an_input_set_is_listed_as_one_with_zero_corners() {
    let mut random = Random::new(202_602);
    let (mut first, mut second) = (room(LISTING_ROOM), room(LISTING_ROOM));
    let (mut models, mut refused) = (0, 0);
    let corners = file(&[numbers(0x20, &[0; 6]), numbers(0x21, &[0; 6])]);
    for turn in 0..1_500 {
        let mut records = model(&mut random);
        records.retain(|record| !(0x20..0x30).contains(&record.kind));
        let place = records.iter().position(|record| record.kind == 0x30).expect("a direction");
        let start = file(&records[..place]);
        // From the direction on anything may follow; it is damaged behind its kind byte.
        let mut behind = file(&records[place..]).split_off(1);
        if turn % 2 == 0 {
            damage_bytes(&mut random, &mut behind);
        }
        let without = [&start[..], &[0x30], &behind].concat();
        let with = [&start[..], &corners, &[0x30], &behind].concat();
        let said = listing(&without, &mut first).expect("room");
        assert_eq!(listing(&with, &mut second).expect("room"), moved(said, corners.len()).as_bytes(), "file {without:02X?}");
        assert_eq!(said, text(of_file::<i128>(&without)).as_bytes());
        if said.starts_with(b"model ") {
            models += 1;
        } else {
            refused += 1;
        }
    }
    assert!(models > 700 && refused > 400, "both come often: {models} and {refused}");
}

#[test]
fn less_room_than_the_longest_listing_needs_is_refused_and_nothing_is_written() {
    let bytes = file(&model(&mut Random::new(43)));
    for length in [0, 1, 100, 2_048, LISTING_ROOM - 1] {
        for bytes in [&bytes[..], &[]] {
            let mut out = room(length);
            assert_eq!(listing(bytes, &mut out), None);
            assert_eq!(out, room(length));
        }
    }
}

#[test]
fn more_room_than_needed_is_taken_and_left_as_it_was() {
    let mut random = Random::new(44);
    for length in [LISTING_ROOM, LISTING_ROOM + 1, 2 * LISTING_ROOM] {
        compare(&file(&model(&mut random)), &mut room(length));
    }
}

#[test]
fn long_numbers_of_either_sign_are_written_whole() {
    let mut out = room(LISTING_ROOM);
    for corner in [-1_048_576i32, -1_000_000, 0, 1_048_576] {
        for entry in [-1_000i32, 1_000] {
            let mut records = vec![head(6, 256)];
            for number in 0..6u8 {
                let mut entries = [3; 6];
                entries[usize::from(number)] = 65_500;
                records.push(row(number, &entries));
            }
            for kind in [0x14, 0x24] {
                records.extend((0..16).map(|k| numbers(kind, &[corner - corner.signum() * k; 6])));
            }
            records.extend((0..16).map(|k| numbers(0x30, &[entry - entry.signum() * k; 6])));
            records.extend((0..16).map(|k| guard(k, 0)));
            records.push(end());
            compare(&file(&records), &mut out);
        }
    }
}
