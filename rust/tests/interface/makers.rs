//! Random models as records, and ways to damage them. The generator is fixed, so every run makes the same files.

use support::records::{end, fitted, guard, head, numbers, row, Record};
use support::specification::fitted_entry;

/// A small generator (splitmix64).
pub struct Random(u64);

impl Random {
    pub fn new(seed: u64) -> Random {
        Random(seed)
    }

    pub fn bits(&mut self) -> u64 {
        self.0 = self.0.wrapping_add(0x9E37_79B9_7F4A_7C15);
        let mut z = self.0;
        z = (z ^ (z >> 30)).wrapping_mul(0xBF58_476D_1CE4_E5B9);
        z = (z ^ (z >> 27)).wrapping_mul(0x94D0_49BB_1331_11EB);
        z ^ (z >> 31)
    }

    /// A number from low to high.
    pub fn between(&mut self, low: i64, high: i64) -> i64 {
        let width = (i128::from(high) - i128::from(low) + 1) as u128;
        (i128::from(low) + (u128::from(self.bits()) % width) as i128) as i64
    }

    pub fn below(&mut self, count: usize) -> usize {
        (self.bits() % count as u64) as usize
    }

    pub fn pick<T: Clone>(&mut self, choices: &[T]) -> T {
        choices[self.below(choices.len())].clone()
    }

    pub fn one_in(&mut self, count: usize) -> bool {
        self.below(count) == 0
    }
}

/// The sign of 64 bits.
pub const SIGN: u64 = 1 << 63;

/// Numbers of 64 bits that no fitted row may hold, without their sign: the next above 2, 4, the largest, infinity, NaNs.
pub const NO_ENTRIES: [u64; 8] = [
    0x4000_0000_0000_0001,
    0x4010_0000_0000_0000,
    0x7FEF_FFFF_FFFF_FFFF,
    0x7FF0_0000_0000_0000,
    0x7FF0_0000_0000_0001,
    0x7FF7_FFFF_FFFF_FFFF,
    0x7FF8_0000_0000_0000,
    0x7FFF_FFFF_FFFF_FFFF,
];

/// The 64 bits of what is no fitted entry, of either sign.
fn no_entry(random: &mut Random) -> u64 {
    random.pick(&NO_ENTRIES) | random.pick(&[0, SIGN])
}

/// The 64 bits of a fitted value near a stored entry: at it, at a tie beside it, or anywhere up to there; of 0 also the tiniest.
pub fn near(random: &mut Random, entry: i32) -> u64 {
    if entry == 0 && random.one_in(3) {
        let any = random.bits() >> random.pick(&[3, 12]);
        let tiny = random.pick(&[0, 0, 1, (1 << 52) - 1, 1 << 52, any, any]);
        return tiny.min(2f64.powi(-17).to_bits()) | random.pick(&[0, SIGN]);
    }
    let somewhere = random.between(-500, 500) as f64 / 1_000.0;
    let beside = random.pick(&[0.0, 0.5, -0.5, somewhere, somewhere]);
    let bits = ((f64::from(entry) + beside) / 65_536.0).clamp(-2.0, 2.0).to_bits();
    // Toward 0 by one bit, which passes no limit.
    bits - u64::from(bits & !SIGN > 0 && random.one_in(4))
}

/// The 64 bits of a value that becomes this entry: the entry itself, of 0 either zero, or a value beside it.
pub fn fitted_value(random: &mut Random, entry: i32) -> u64 {
    let beside = near(random, entry);
    if random.one_in(2) && fitted_entry(f64::from_bits(beside)) == Some(entry) {
        return beside;
    }
    let exact = (f64::from(entry) / 65_536.0).to_bits();
    if entry == 0 {
        exact | random.pick(&[0, SIGN])
    } else {
        exact
    }
}

/// A fitted row of the 64 bits for each of these entries. Beyond n there are zeros, of one sign or of both.
pub fn fitted_row(random: &mut Random, n: usize, number: u8, entries: &[i32; 6], bits_of: fn(&mut Random, i32) -> u64) -> Record {
    let mut patterns = [0; 6];
    for (bits, entry) in patterns.iter_mut().zip(&entries[..n]) {
        *bits = bits_of(random, *entry);
    }
    let zeros = random.pick(&[[0, 0], [SIGN, SIGN], [0, SIGN]]);
    for bits in &mut patterns[n..] {
        *bits = random.pick(&zeros);
    }
    fitted(number, &patterns)
}

/// How the entries of a matrix are drawn.
#[derive(Clone, Copy, Debug)]
enum Matrix {
    Calm,
    Swinging,
    Growing,
    Extreme,
    Sparse,
}

fn matrix_rows(random: &mut Random, n: usize) -> Vec<Record> {
    let style = random.pick(&[Matrix::Calm, Matrix::Calm, Matrix::Swinging, Matrix::Growing, Matrix::Extreme, Matrix::Sparse]);
    let share = 65_535 / n as i64;
    // Of four matrices two have scaled rows, one has fitted rows, and one has both.
    let fitted = random.pick(&[0, 0, 1, 2]);
    (0..n)
        .map(|number| {
            let mut entries = [0; 6];
            for (column, entry) in entries.iter_mut().enumerate().take(n) {
                *entry = match style {
                    Matrix::Calm => random.between(-share, share),
                    Matrix::Swinging if column == number => random.between(60_000, 66_500),
                    Matrix::Swinging => random.between(-1_500, 1_500),
                    Matrix::Growing => random.between(-80_000, 80_000),
                    Matrix::Extreme => random.pick(&[-131_072, -131_071, -65_536, -1, 0, 0, 1, 65_535, 65_536, 131_072]),
                    Matrix::Sparse if random.one_in(n) => random.between(-65_536, 65_536),
                    Matrix::Sparse => 0,
                } as i32;
            }
            if fitted > 0 && random.below(2) < fitted {
                return fitted_row(random, n, number as u8, &entries, near);
            }
            row(number as u8, &entries)
        })
        .collect()
}

/// A column of n entries of either sign whose magnitudes sum to this total.
fn column_of(random: &mut Random, n: usize, total: i64) -> Vec<i32> {
    let mut rest = total;
    let mut entries: Vec<i32> = (1..n)
        .map(|_| {
            let share = random.pick(&[0, rest / 2, rest]).min(random.between(0, rest));
            rest -= share;
            share as i32
        })
        .collect();
    entries.insert(random.below(n), rest as i32);
    entries.into_iter().map(|entry| random.pick(&[entry, -entry])).collect()
}

/// Rows whose columns sum to at most 65,536; in one model of three one column sums to more, often by one.
fn nearly_calm_rows(random: &mut Random, n: usize) -> Vec<Record> {
    let loud = if random.one_in(3) { random.below(n) } else { n };
    let columns: Vec<Vec<i32>> = (0..n)
        .map(|column| {
            let below = random.between(0, 65_536);
            let above = random.between(65_537, 131_072);
            let totals = if column == loud { [65_537, 65_537, 65_538, above] } else { [65_536, 65_536, 65_535, below] };
            let total = random.pick(&totals);
            column_of(random, n, total)
        })
        .collect();
    let fitted = random.pick(&[0, 0, 1, 2]);
    (0..n)
        .map(|number| {
            let mut entries = [0; 6];
            for (entry, column) in entries.iter_mut().zip(&columns) {
                *entry = column[number];
            }
            if fitted > 0 && random.below(2) < fitted {
                return fitted_row(random, n, number as u8, &entries, fitted_value);
            }
            row(number as u8, &entries)
        })
        .collect()
}

/// A set's points. For a zonotope the reach is shared out over its points.
fn set_points(random: &mut Random, n: usize, family: u8) -> Vec<Record> {
    let most = random.pick(&[0, 1, 10, 5_000, 1_048_576, 1_048_576]);
    let edge = random.one_in(4);
    let value = |random: &mut Random, most: i64| -> i32 {
        (if edge { random.pick(&[-most, most, most, 0]) } else { random.between(-most, most) }) as i32
    };
    let point = |random: &mut Random, most: i64| -> [i32; 6] {
        let mut entries = [0; 6];
        for entry in &mut entries[..n] {
            *entry = value(random, most);
        }
        entries
    };
    let (kinds, points): (Vec<u8>, Vec<[i32; 6]>) = match random.below(3) {
        0 => {
            let (mut lower, mut upper) = (point(random, most), point(random, most));
            for i in 0..6 {
                (lower[i], upper[i]) = (lower[i].min(upper[i]), lower[i].max(upper[i]));
            }
            (vec![0, 1], vec![lower, upper])
        }
        1 => {
            let generators = random.pick(&[1, 2, 3, 7, 8]);
            let share = most / (1 + generators as i64);
            let kinds = std::iter::once(2).chain(vec![3; generators]).collect();
            (kinds, (0..=generators).map(|_| point(random, share)).collect())
        }
        _ => {
            let count = random.pick(&[1, 2, 3, 5, 15, 16]);
            (vec![4; count], (0..count).map(|_| point(random, most)).collect())
        }
    };
    kinds.into_iter().zip(points).map(|(kind, entries)| numbers(family + kind, &entries)).collect()
}

fn direction(random: &mut Random, n: usize) -> Record {
    let most = random.pick(&[1, 3, 100, 1_000]);
    let mut entries = [0; 6];
    for entry in &mut entries[..n] {
        *entry = random.between(-most, most) as i32;
    }
    if random.one_in(4) || entries == [0; 6] {
        entries[random.below(n)] = random.pick(&[-1_000, -1, 1, 1_000]);
    }
    numbers(0x30, &entries)
}

/// Coordinate i of a record that has six numbers of four bytes.
fn coordinate(record: &Record, i: usize) -> i32 {
    i32::from_le_bytes(record.body[4 * i..][..4].try_into().expect("four bytes"))
}

/// A drift for which these input points leave room: of any size, or in some coordinates as large as can be; one in eight is zero.
fn drift(random: &mut Random, n: usize, input: &[Record]) -> Record {
    let most = random.pick(&[0, 1, 10, 5_000, 5_000, 1_048_576, 1_048_576, 1_048_576]);
    let mut entries = [0; 6];
    for (i, entry) in entries.iter_mut().enumerate().take(n) {
        let sizes = input.iter().map(|point| i64::from(coordinate(point, i)).abs());
        let summed = input.first().is_some_and(|point| point.kind == 0x22);
        let reach = if summed { sizes.sum() } else { sizes.max().unwrap_or(0) };
        let room = most.min(1_048_576 - reach);
        let somewhere = random.between(-room, room);
        *entry = random.pick(&[-room, room, somewhere]) as i32;
    }
    numbers(0x05, &entries)
}

/// The records of a valid model with these rows, without guards and without the end. One in six has no input set, and every other
/// one a drift.
fn open_model_of(random: &mut Random, rows: fn(&mut Random, usize) -> Vec<Record>) -> Vec<Record> {
    let n = 1 + random.below(6);
    let steps = match random.below(8) {
        0 => 0,
        1 => 1,
        2 => 256,
        3 => 255,
        4 => random.between(1, 256),
        _ => random.between(1, 40),
    };
    let mut records = vec![head(n as u8, steps as u16)];
    records.extend(rows(random, n));
    let initial = set_points(random, n, 0x10);
    let input = if random.one_in(6) { Vec::new() } else { set_points(random, n, 0x20) };
    if random.one_in(2) {
        records.push(drift(random, n, &input));
    }
    records.extend(initial);
    records.extend(input);
    let count = random.pick(&[1, 2, 3, 4, 16]);
    records.extend((0..count).map(|_| direction(random, n)));
    records
}

/// The records of a valid model without guards and without the end.
pub fn open_model(random: &mut Random) -> Vec<Record> {
    open_model_of(random, matrix_rows)
}

/// The records of a valid model without guards. Two in three are calm, and the others are not because of one column.
pub fn nearly_calm_model(random: &mut Random) -> Vec<Record> {
    let mut records = open_model_of(random, nearly_calm_rows);
    records.push(end());
    records
}

/// The records of a valid model with guards at random levels, and the end.
pub fn model(random: &mut Random) -> Vec<Record> {
    let mut records = open_model(random);
    let directions = records.iter().filter(|record| record.kind == 0x30).count();
    let count = random.pick(&[0, 1, 2, 5, 16]);
    for _ in 0..count {
        let level = random.pick(&[i64::MIN, -1, 0, 1, 1_000_000, i64::MAX]);
        records.push(guard(random.below(directions) as u8, level));
    }
    records.push(end());
    records
}

/// The records of the longest file that is accepted (File 9).
pub fn longest() -> Vec<Record> {
    let mut records = vec![head(6, 256)];
    let entries = [9_000.0, -9_000.0, 9_000.25, -9_000.25, 9_000.5, -9_000.5].map(|x: f64| (x / 65_536.0).to_bits());
    records.extend((0..6).map(|number| fitted(number, &entries)));
    records.push(numbers(0x05, &[1_048_561, -1_048_561, 1, -1, 0, 7]));
    records.extend((0..16).map(|k| numbers(0x14, &[k, -k, k, -k, k, -k])));
    records.extend((0..16).map(|k| numbers(0x24, &[k, k, k, k, k, k])));
    records.extend((0..16).map(|k| numbers(0x30, &[k + 1, 2, 3, 4, 5, 6])));
    records.extend((0..16).map(|k| guard(k, 1_000)));
    records.push(end());
    records
}

/// Whether this is the kind of a row, scaled or fitted.
pub fn is_row(kind: u8) -> bool {
    matches!(kind, 0x02 | 0x03)
}

/// The places of the records of a kind.
fn places(records: &[Record], fits: impl Fn(u8) -> bool) -> Vec<usize> {
    (0..records.len()).filter(|place| fits(records[*place].kind)).collect()
}

/// Writes a number into a body.
fn put(record: &mut Record, at: usize, bytes: &[u8]) {
    record.body[at..at + bytes.len()].copy_from_slice(bytes);
}

/// Puts a drift of this number in coordinate i behind the rows, in place of one that may be there.
fn put_drift(records: &mut Vec<Record>, i: usize, entry: i32) {
    records.retain(|record| record.kind != 0x05);
    let mut entries = [0; 6];
    entries[i] = entry;
    let behind = places(records, is_row).last().map_or(0, |place| place + 1);
    records.insert(behind, numbers(0x05, &entries));
}

/// Where the six entries of a body of this kind begin, and how many bytes each has; `None` for a kind that has none.
pub fn entries_in(kind: u8) -> Option<(usize, usize)> {
    match kind {
        0x02 => Some((1, 4)),
        0x03 => Some((1, 8)),
        0x05 | 0x10..=0x14 | 0x20..=0x24 | 0x30 => Some((0, 4)),
        _ => None,
    }
}

/// Puts an entry, or its 64 bits in a fitted row, into a column.
pub fn put_entry(record: &mut Record, column: usize, bits: u64) {
    let (first, size) = entries_in(record.kind).expect("a kind with entries");
    put(record, first + size * column, &bits.to_le_bytes()[..size]);
}

/// What no entry beyond n may be, as 64 bits, of which a number of four bytes takes the lower half.
fn rubbish(random: &mut Random, kind: u8) -> u64 {
    if kind == 0x03 {
        let one_bit = 1 << random.below(63);
        let any = (random.bits() >> 1).max(1);
        let none = no_entry(random);
        return random.pick(&[1, one_bit, 1f64.to_bits(), none, any]) | random.pick(&[0, SIGN]);
    }
    let one_bit = 1i32 << random.below(32);
    let any = (random.bits() as i32) | 1;
    random.pick(&[1, -1, one_bit, i32::MIN, i32::MAX, any]) as u64
}

/// Puts rubbish beyond n, which is below 6: next to n, in the last column, in any one or in all.
pub fn put_rubbish(random: &mut Random, record: &mut Record, n: usize) {
    let one = n + random.below(6 - n);
    for column in random.pick(&[n..n + 1, 5..6, one..one + 1, n..6]) {
        let bits = rubbish(random, record.kind);
        put_entry(record, column, bits);
    }
}

/// Makes a value of a record wrong that comes up to n: the number of a row, or an entry.
fn spoil_value(random: &mut Random, record: &mut Record, n: usize) {
    if is_row(record.kind) && random.one_in(2) {
        let number = record.body[0];
        return put(record, 0, &[random.pick(&[number.wrapping_add(1), number.wrapping_sub(1), 255])]);
    }
    let wrong = match record.kind {
        0x02 => 131_073,
        0x03 => no_entry(random),
        0x30 => 1_001,
        _ => 1_048_577,
    };
    put_entry(record, random.below(n), wrong);
}

/// The place of a record that has entries; each kind comes equally often.
pub fn place_with_entries(random: &mut Random, records: &[Record]) -> usize {
    let mut kinds: Vec<u8> = records.iter().map(|record| record.kind).filter(|kind| entries_in(*kind).is_some()).collect();
    kinds.sort_unstable();
    kinds.dedup();
    let kind = random.pick(&kinds);
    random.pick(&places(records, |other| other == kind))
}

/// One damage to whole records or to a value, that a reader has to see (or, now and then, may accept).
pub fn damage_records(random: &mut Random, records: &mut Vec<Record>) {
    let n = usize::from(records[0].body[0]);
    let place = random.below(records.len());
    let other = random.below(records.len());
    match random.below(20) {
        0 => records.swap(place, other),
        1 => {
            records.remove(place);
        }
        2 => {
            let copy = records[place].clone();
            records.insert(other, copy);
        }
        3 => {
            let copy = records[place].clone();
            let times = random.pick(&[1, 7, 8, 15, 16, 17]);
            for _ in 0..times {
                records.insert(place, copy.clone());
            }
        }
        4 => {
            records[place].kind =
                random.pick(&[0x01, 0x02, 0x03, 0x05, 0x10, 0x11, 0x12, 0x13, 0x14, 0x20, 0x23, 0x24, 0x30, 0x40, 0xFF])
        }
        5 => records[place].kind = random.bits() as u8,
        6 => records[0] = head(random.pick(&[0, 1, 6, 7, 255]), random.pick(&[0, 1, 256, 257, 512, 65_535])),
        7 => {
            let place = random.pick(&places(records, is_row));
            put(&mut records[place], 0, &[random.pick(&[0, 1, 5, 6, 255])]);
        }
        8 => {
            let place = random.pick(&places(records, is_row));
            if records[place].kind == 0x03 {
                let bits = match random.below(5) {
                    0 => (2f64.to_bits() - random.below(2) as u64) | random.pick(&[0, SIGN]),
                    1 => random.bits(),
                    _ => no_entry(random),
                };
                put(&mut records[place], 1 + 8 * random.below(n), &bits.to_le_bytes());
                if random.one_in(3) {
                    put(&mut records[place], 0, &[random.pick(&[0, 1, 6])]);
                }
            } else {
                let entry: i32 = random.pick(&[131_073, -131_073, 131_072, -131_072, i32::MIN, i32::MAX]);
                put(&mut records[place], 1 + 4 * random.below(n), &entry.to_le_bytes());
            }
        }
        9 | 10 => {
            let place = random.pick(&places(records, |kind| (0x10..0x30).contains(&kind)));
            let value: i32 = random.pick(&[1_048_576, 1_048_577, -1_048_576, -1_048_577, i32::MIN, i32::MAX, 0, 1]);
            put(&mut records[place], 4 * random.below(n), &value.to_le_bytes());
        }
        11 => {
            let place = random.pick(&places(records, |kind| kind == 0x30));
            let entry: i32 = random.pick(&[1_001, -1_001, 1_000, -1_000, i32::MIN, i32::MAX]);
            put(&mut records[place], 4 * random.below(n), &entry.to_le_bytes());
        }
        12 => {
            let place = random.pick(&places(records, |kind| kind == 0x30));
            put(&mut records[place], 0, &[0; 24][..4 * n]);
        }
        13 => {
            let entry = random.pick(&[1_048_576, 1_048_577, -1_048_576, -1_048_577, i32::MIN, i32::MAX]);
            put_drift(records, random.below(n), entry);
        }
        14 => {
            // With a point of the input set the sum is at its limit, or beyond it by one.
            let points = places(records, |kind| (0x20..=0x24).contains(&kind));
            let i = random.below(n);
            let size = if points.is_empty() { 0 } else { coordinate(&records[random.pick(&points)], i).unsigned_abs() };
            let entry = 1_048_576 + i64::from(random.one_in(2)) - i64::from(size);
            put_drift(records, i, random.pick(&[entry, -entry]) as i32);
        }
        15 => records.insert(other, numbers(0x05, &[1])),
        16 | 17 if n < 6 => {
            let place = place_with_entries(random, records);
            if random.one_in(2) {
                spoil_value(random, &mut records[place], n);
            }
            put_rubbish(random, &mut records[place], n);
        }
        18 => {
            // Saved with fewer coordinates: the rows beyond them are left out, and no column.
            let fewer = 1 + random.below(n);
            let rows = places(records, is_row);
            if rows.len() == n {
                records.drain(rows[fewer - 1] + 1..=rows[n - 1]);
            }
            records[0].body[0] = fewer as u8;
        }
        _ => {
            let before_end = records.len() - 1;
            records.insert(before_end, guard(random.pick(&[0, 1, 2, 15, 16, 255]), 0));
        }
    }
}

/// One damage to the bytes: cut, a flipped byte, bytes put in or taken out, bytes after the end.
pub fn damage_bytes(random: &mut Random, bytes: &mut Vec<u8>) {
    let place = random.below(bytes.len());
    match random.below(6) {
        0 => bytes.truncate(place),
        1 => bytes[place] ^= 1 << random.below(8),
        2 => bytes[place] = random.bits() as u8,
        3 => bytes.insert(place, random.bits() as u8),
        4 => {
            bytes.remove(place);
        }
        _ => {
            let count = 1 + random.below(40);
            bytes.extend((0..count).map(|_| random.bits() as u8));
        }
    }
}
