//! Written files: the one file of a model, by hand and by the specification in Rust, however the model was saved; what reading it
//! gives; and no byte beside it changes.

use crate::lent::Lent;
use crate::makers::{damage_bytes, fitted_row, fitted_value, longest, model, Random, SIGN};
use pepperscarp::{listing, write, Refusal, LISTING_ROOM, WRITE_ROOM};
use support::records::{end, file, fitted, guard, head, numbers, of_model, row, Record};
use support::specification::{self, Form, Model, Set};
use support::{calls, listing::text};

/// What is written for a file into a slice of this length. All behind it is as it was; of a refusal, all that was lent.
pub fn written(bytes: &[u8], length: usize) -> Result<Vec<u8>, Refusal> {
    let [reply, again] = [0, 1].map(|paint| {
        let mut lent = Lent::painted(length, paint);
        let reply = write(bytes, lent.part()).map(<[u8]>::to_vec);
        assert!(lent.is_untouched_behind(reply.as_ref().map_or(0, Vec::len)), "file {bytes:02X?}");
        reply
    });
    assert_eq!(reply, again);
    reply
}

/// The one file of a file's model.
fn one_file(bytes: &[u8]) -> Vec<u8> {
    written(bytes, WRITE_ROOM).expect("a model")
}

/// Bytes that are told in hexadecimal. Spaces have no part in it.
fn hex(digits: &str) -> Vec<u8> {
    let digits: Vec<char> = digits.chars().filter(|digit| *digit != ' ').collect();
    let byte = |two: &[char]| u8::from_str_radix(&two.iter().collect::<String>(), 16).expect("two digits");
    digits.chunks(2).map(byte).collect()
}

/// Five and four entries beyond n.
const FIVE: &str = "0000000000000000000000000000000000000000";
const FOUR: &str = "00000000000000000000000000000000";

/// The file with this input set, and an initial set, a row and a direction of one coordinate.
fn with_input(input: &[Record]) -> Vec<Record> {
    let start = [head(1, 3), row(0, &[32_768]), numbers(0x10, &[0]), numbers(0x11, &[0])];
    [&start[..], input, &[numbers(0x30, &[1]), end()]].concat()
}

#[test]
fn the_sample_is_written_as_it_is() {
    let start = format!("01 01 0300  02 00 00800000 {FIVE}");
    let sets = format!("10 00000000 {FIVE}  11 00000000 {FIVE}  20 00000000 {FIVE}  21 01000000 {FIVE}");
    let asked = format!("30 01000000 {FIVE}  40 00 0100000000000000  40 00 0200000000000000  40 00 0300000000000000");
    let sample = hex(&format!("{start} {sets} {asked} FF"));
    assert_eq!(sample.len(), 186);
    assert_eq!(one_file(&sample), sample);
}

#[test]
fn each_way_to_save_a_small_model_gives_the_bytes_worked_out_by_hand() {
    let rows_and_sets = format!("02 00 00800000 {FIVE}  10 00000000 {FIVE}  11 00000000 {FIVE}");
    let expected = hex(&format!("01 01 7800  {rows_and_sets}  30 01000000 {FIVE}  FF"));
    assert_eq!(expected.len(), 106);
    let half = 0.5f64.to_bits();
    let rows = [
        row(0, &[32_768]),
        fitted(0, &[half]),
        fitted(0, &[half, SIGN, SIGN, SIGN, SIGN, SIGN]),
        fitted(0, &[half, 0, SIGN, 0, SIGN, 0]),
        // A tie, and the numbers beside one: 32,768.5, and just above 32,767.5 and below 32,768.5, over 65,536.
        fitted(0, &[0x3FE0_0010_0000_0000]),
        fitted(0, &[0x3FDF_FFE0_0000_0001]),
        fitted(0, &[0x3FE0_000F_FFFF_FFFF]),
    ];
    let drifts = [vec![], vec![numbers(0x05, &[0])]];
    let inputs = [vec![], vec![numbers(0x20, &[0]), numbers(0x21, &[0])]];
    let mut ways = 0;
    for steps in [0, 120] {
        for row in &rows {
            for (drift, input) in drifts.iter().flat_map(|drift| inputs.iter().map(move |input| (drift, input))) {
                let start = [head(1, steps), row.clone()];
                let initial = [numbers(0x10, &[0]), numbers(0x11, &[0])];
                let bytes = file(&[&start[..], drift, &initial, input, &[numbers(0x30, &[1]), end()]].concat());
                assert_eq!(one_file(&bytes), expected, "file {bytes:02X?}");
                ways += 1;
            }
        }
    }
    assert_eq!(ways, 2 * 7 * 2 * 2);
}

#[test]
fn a_model_with_every_part_has_the_bytes_worked_out_by_hand() {
    let head_and_rows = format!("01 02 0001  02 00 FFFFFFFF 00000100 {FOUR}  02 01 00000000 0000FEFF {FOUR}");
    let drift = format!("05 00000000 F9FFFFFF {FOUR}");
    let initial = format!("12 01000000 FEFFFFFF {FOUR}  13 03000000 01000000 {FOUR}  13 FFFFFFFF 02000000 {FOUR}");
    let input = format!("24 00000000 00000000 {FOUR}  24 FFFFFFFF 00010000 {FOUR}");
    let directions = format!("30 E8030000 18FCFFFF {FOUR}  30 00000000 01000000 {FOUR}");
    let guards = "40 01 0000000000000080  40 00 FFFFFFFFFFFFFF7F  40 01 FEFFFFFFFFFFFFFF";
    let expected = hex(&format!("{head_and_rows} {drift} {initial} {input} {directions} {guards} FF"));
    assert_eq!(expected.len(), 287);
    let scaled = [row(0, &[-1, 65_536]), row(1, &[0, -131_072])];
    let bits = |values: [f64; 2]| values.map(|value| (value / 65_536.0).to_bits());
    // Rounded: -1.25, 65,536.5 and a negative zero.
    let rounded = [fitted(0, &bits([-1.25, 65_536.5])), fitted(1, &bits([-0.0, -131_072.0]))];
    let mixed = [scaled[0].clone(), rounded[1].clone()];
    for rows in [scaled, rounded, mixed] {
        let points = [
            numbers(0x05, &[0, -7]),
            numbers(0x12, &[1, -2]),
            numbers(0x13, &[3, 1]),
            numbers(0x13, &[-1, 2]),
            numbers(0x24, &[0, 0]),
            numbers(0x24, &[-1, 256]),
            numbers(0x30, &[1_000, -1_000]),
            numbers(0x30, &[0, 1]),
        ];
        let guards = [guard(1, i64::MIN), guard(0, i64::MAX), guard(1, -2)];
        let bytes = file(&[&[head(2, 256)][..], &rows, &points, &guards, &[end()]].concat());
        assert_eq!(one_file(&bytes), expected, "file {bytes:02X?}");
    }
}

#[test]
fn only_the_box_of_zeros_is_left_out_and_only_as_the_input_set() {
    let left_out = file(&with_input(&[]));
    assert_eq!(one_file(&file(&with_input(&[numbers(0x20, &[0]), numbers(0x21, &[0])]))), left_out);
    // Zeros in another form, and boxes that are nearly zero.
    for input in [
        vec![numbers(0x24, &[0])],
        vec![numbers(0x24, &[0]), numbers(0x24, &[0])],
        vec![numbers(0x22, &[0]), numbers(0x23, &[0])],
        vec![numbers(0x22, &[0]), numbers(0x23, &[0]), numbers(0x23, &[0])],
        vec![numbers(0x20, &[-1]), numbers(0x21, &[0])],
        vec![numbers(0x20, &[0]), numbers(0x21, &[1])],
    ] {
        let bytes = file(&with_input(&input));
        assert_eq!(bytes.len(), left_out.len() + 25 * input.len());
        assert_eq!(one_file(&bytes), bytes);
    }
    for initial in [vec![0x10, 0x11], vec![0x12, 0x13], vec![0x12, 0x13, 0x13], vec![0x14], vec![0x14, 0x14]] {
        let mut records = with_input(&[]);
        records.splice(2..4, initial.into_iter().map(|kind| numbers(kind, &[0])));
        assert_eq!(one_file(&file(&records)), file(&records));
    }
    // Each coordinate of each corner and of the drift counts.
    for (kind, i) in [0x05, 0x20, 0x21].into_iter().flat_map(|kind| (0..6).map(move |i| (kind, i))) {
        let mut records = vec![head(6, 1)];
        records.extend((0..6).map(|number| row(number, &[0])));
        for other in [0x05, 0x10, 0x11, 0x20, 0x21, 0x30] {
            let mut entries = [i32::from(other == 0x30), 0, 0, 0, 0, 0];
            if other == kind {
                entries[i] = if kind == 0x20 { -1 } else { 1 };
            }
            records.push(numbers(other, &entries));
        }
        records.push(end());
        let mut expected = records.clone();
        expected.retain(|record| match record.kind {
            0x05 => kind == 0x05,
            0x20 | 0x21 => kind != 0x05,
            _ => true,
        });
        assert_eq!(one_file(&file(&records)), file(&expected), "kind {kind:02X}, coordinate {i}");
    }
}

/// How often each choice of `otherwise` was made.
#[derive(Default, Debug)]
struct Ways {
    steps: usize,
    fitted: usize,
    scaled: usize,
    drift: usize,
    input: usize,
}

/// The file of a model saved in any way: rows fitted, 0 for 120 steps, and records of zeros where they could be left out.
fn otherwise(random: &mut Random, model: &Model, ways: &mut Ways) -> Vec<u8> {
    let mut records = of_model(model);
    if model.steps == 120 && random.one_in(2) {
        records[0] = head(model.n as u8, 0);
        ways.steps += 1;
    }
    for (number, entries) in model.matrix.iter().enumerate().take(model.n) {
        if random.one_in(2) {
            records[1 + number] = fitted_row(random, model.n, number as u8, entries, fitted_value);
            ways.fitted += 1;
        } else {
            ways.scaled += 1;
        }
    }
    if model.drift == [0; 6] && random.one_in(2) {
        records.insert(1 + model.n, numbers(0x05, &[0; 6]));
        ways.drift += 1;
    }
    if model.input == Set::zero_box() && random.one_in(2) {
        let first = records.iter().position(|record| record.kind == 0x30).expect("a direction");
        records.splice(first..first, [numbers(0x20, &[0; 6]), numbers(0x21, &[0; 6])]);
        ways.input += 1;
    }
    file(&records)
}

/// A random model, more often than by chance with 120 steps, without a drift and with zero as its input.
fn a_model(random: &mut Random) -> Model {
    let mut model = specification::read(&file(&model(random))).expect("a model");
    if random.one_in(3) {
        model.steps = 120;
    }
    if random.one_in(3) {
        model.drift = [0; 6];
    }
    if random.one_in(3) {
        model.input = Set::zero_box();
    }
    model
}

#[test]
fn however_a_model_is_saved_the_same_file_is_written() {
    let mut random = Random::new(202_608);
    let mut ways = Ways::default();
    for _ in 0..4_000 {
        let model = a_model(&mut random);
        let expected = file(&of_model(&model));
        for _ in 0..4 {
            let bytes = otherwise(&mut random, &model, &mut ways);
            assert_eq!(specification::read(&bytes).as_ref(), Ok(&model));
            assert_eq!(one_file(&bytes), expected, "file {bytes:02X?}");
        }
    }
    println!("{ways:?}");
    let Ways { steps, fitted, scaled, drift, input } = ways;
    assert!([steps, fitted, scaled, drift, input].iter().all(|count| *count > 2_000), "each comes often");
}

#[test]
fn what_is_written_is_read_as_the_file_was_and_written_again_as_it_is() {
    let mut random = Random::new(81);
    let (mut first, mut second) = (vec![0; LISTING_ROOM], vec![0; LISTING_ROOM]);
    let (mut same, mut longest) = (0, 0);
    for turn in 0..2_000 {
        let bytes = file(&model(&mut random));
        let one = one_file(&bytes);
        let read = specification::read(&bytes).expect("a model");
        assert_eq!(one, file(&of_model(&read)), "file {bytes:02X?}");
        assert_eq!(specification::read(&one), Ok(read));
        assert_eq!(listing(&one, &mut first), listing(&bytes, &mut second));
        if turn % 4 == 0 {
            assert_eq!(text(calls::listing(&one)).as_bytes(), listing(&bytes, &mut second).expect("room"));
        }
        assert_eq!(written(&one, one.len()), Ok(one.clone()));
        same += usize::from(one == bytes);
        longest = longest.max(one.len());
    }
    println!("{same} of the files are written as they are; the longest has {longest} bytes");
    assert!(same > 400 && same < 1_600, "both come often: {same}");
}

#[test]
fn two_files_are_written_alike_just_where_their_models_are_equal() {
    let mut random = Random::new(82);
    let mut ways = Ways::default();
    let (mut equal, mut different) = (0, 0);
    for turn in 0..40_000 {
        let model = a_model(&mut random);
        let one = file(&of_model(&model));
        let mut bytes = if turn % 4 == 0 { otherwise(&mut random, &model, &mut ways) } else { one.clone() };
        if turn % 8 != 0 {
            damage_bytes(&mut random, &mut bytes);
        }
        let Ok(other) = specification::read(&bytes) else { continue };
        assert_eq!(one_file(&bytes) == one, other == model, "file {bytes:02X?}");
        if other == model {
            equal += 1;
        } else {
            different += 1;
        }
    }
    assert!(equal > 4_000 && different > 3_000, "both come often: {equal} and {different}");
}

/// Sets of each form, with two coordinates.
fn sets() -> [Set; 3] {
    let set = |form, points: &[[i32; 2]]| Set { form, points: points.iter().map(|[x, y]| [*x, *y, 0, 0, 0, 0]).collect() };
    [
        set(Form::Box, &[[-1, -2], [3, 4]]),
        set(Form::Zonotope, &[[1, -2], [3, 1], [-1, 2]]),
        set(Form::Vertices, &[[0, 0], [4, 0], [0, 3], [-5, 250]]),
    ]
}

#[test]
fn every_shorter_slice_is_refused_by_22_and_keeps_every_byte() {
    let mut random = Random::new(83);
    let mut ways = Ways::default();
    let mut lengths = 0;
    let inputs = [&sets()[..], &[Set::zero_box()]].concat();
    for (initial, input) in sets().iter().flat_map(|initial| inputs.iter().map(move |input| (initial, input))) {
        for drift in [[0; 6], [-9, 300, 0, 0, 0, 0]] {
            let mut matrix = [[0; 6]; 6];
            (matrix[0][0], matrix[1][1]) = (40_000, -1);
            let directions = vec![[1, -1, 0, 0, 0, 0]];
            let (initial, input) = (initial.clone(), input.clone());
            let model = Model { n: 2, steps: 120, matrix, drift, initial, input, directions, guards: vec![(0, -2)] };
            let one = file(&of_model(&model));
            let bytes = otherwise(&mut random, &model, &mut ways);
            for length in 0..one.len() {
                assert_eq!(written(&bytes, length), Err(Refusal::TooShort), "{length} bytes for {one:02X?}");
                lengths += 1;
            }
            for length in one.len()..one.len() + 300 {
                assert_eq!(written(&bytes, length), Ok(one.clone()), "{length} bytes");
            }
        }
    }
    assert!(lengths > 4_000, "{lengths}");
}

/// A file for each number that a file is refused by, with the offset.
fn refused_files() -> Vec<(u8, usize, Vec<u8>)> {
    let records =
        [head(1, 3), row(0, &[32_768]), numbers(0x05, &[-7]), numbers(0x14, &[0]), numbers(0x30, &[1]), guard(0, 2), end()];
    let bytes = file(&records);
    assert_eq!(one_file(&bytes), bytes);
    let changed = |place: usize, some: &[Record]| file(&[&records[..place], some, &records[place + 1..]].concat());
    vec![
        (1, 0, vec![]),
        (1, 115, bytes[..115].to_vec()),
        (2, 115, changed(6, &[Record { kind: 0x50, body: vec![] }])),
        (3, 30, changed(2, &[row(1, &[0])])),
        (4, 0, changed(0, &[head(7, 3)])),
        (5, 4, changed(1, &[row(1, &[0])])),
        (6, 55, changed(3, &[numbers(0x14, &[1_048_577])])),
        (7, 80, changed(4, &[numbers(0x30, &[0])])),
        (8, 105, changed(5, &[guard(1, 2)])),
        (9, 480, changed(4, &vec![numbers(0x30, &[1]); 17])),
        (10, 116, [&bytes[..], &[0xFF]].concat()),
        (15, 4, changed(1, &[fitted(0, &[2.5f64.to_bits()])])),
        (16, 4, changed(1, &[row(0, &[32_768, 1])])),
        (17, 30, changed(2, &[numbers(0x05, &[1_048_577])])),
    ]
}

#[test]
fn a_refused_file_is_answered_before_the_length_and_no_byte_is_written() {
    for (number, offset, bytes) in refused_files() {
        assert_eq!(specification::read(&bytes).map(|_| ()), Err(Refusal::File { number, offset }));
        for length in (0..=120).chain([bytes.len(), WRITE_ROOM, 2_048]) {
            assert_eq!(written(&bytes, length), Err(Refusal::File { number, offset }), "{length} bytes for {bytes:02X?}");
        }
    }
}

#[test]
fn the_longest_file_that_is_written_has_1546_bytes() {
    let records = longest();
    let mut expected = records.clone();
    for (number, record) in expected[1..=6].iter_mut().enumerate() {
        *record = row(number as u8, &[9_000, -9_000, 9_000, -9_000, 9_000, -9_000]);
    }
    let (bytes, expected) = (file(&records), file(&expected));
    assert_eq!((bytes.len(), expected.len()), (1_690, 1_546));
    for bytes in [&bytes, &expected] {
        assert_eq!(written(bytes, 1_546).as_ref(), Ok(&expected));
        assert_eq!(written(bytes, 4_000).as_ref(), Ok(&expected));
        assert_eq!(written(bytes, 1_545), Err(Refusal::TooShort));
    }
    assert_eq!(WRITE_ROOM, 1_546);
    assert_eq!(Refusal::TooShort.number(), 22);
}
