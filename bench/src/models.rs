//! The models that are measured.

use support::specification::{Form, Model, Set, Six};

/// Which sets a measured model has.
#[derive(Clone, Copy, PartialEq, Eq, Debug)]
pub enum Sets {
    Boxes,
    Vertices,
}

impl Sets {
    pub fn name(self) -> &'static str {
        match self {
            Sets::Boxes => "boxes",
            Sets::Vertices => "16 vertices",
        }
    }
}

/// A small generator (xorshift64*): the same numbers in every run.
pub struct Random(u64);

impl Random {
    pub fn new(seed: u64) -> Random {
        Random(seed)
    }

    fn next(&mut self) -> u64 {
        self.0 ^= self.0 >> 12;
        self.0 ^= self.0 << 25;
        self.0 ^= self.0 >> 27;
        self.0.wrapping_mul(0x2545_F491_4F6C_DD1D)
    }

    /// A number from low to high.
    pub fn between(&mut self, low: i32, high: i32) -> i32 {
        let width = (i64::from(high) - i64::from(low) + 1) as u64;
        (i64::from(low) + ((self.next() >> 16) % width) as i64) as i32
    }

    fn point(&mut self, n: usize, low: i32, high: i32) -> Six {
        let mut point = [0; 6];
        for coordinate in point.iter_mut().take(n) {
            *coordinate = self.between(low, high);
        }
        point
    }

    fn vertices(&mut self, n: usize, low: i32, high: i32) -> Set {
        Set { form: Form::Vertices, points: (0..16).map(|_| self.point(n, low, high)).collect() }
    }

    fn set(&mut self, n: usize, sets: Sets, size: i32) -> Set {
        match sets {
            Sets::Boxes => Set { form: Form::Box, points: vec![self.point(n, -size, 0), self.point(n, 1, size)] },
            Sets::Vertices => self.vertices(n, -size, size),
        }
    }
}

/// A model that never grows: in each row and in each column of its matrix the magnitudes sum to less than 65,536. Its working
/// directions stay nonzero for a long time, and its errors do not die out.
pub fn calm(seed: u64, n: usize, steps: usize, sets: Sets, directions: usize) -> Model {
    let mut random = Random::new(seed);
    let mut matrix = [[0; 6]; 6];
    for (row, entries) in matrix.iter_mut().enumerate().take(n) {
        for (column, entry) in entries.iter_mut().enumerate().take(n) {
            *entry = if column == row { random.between(40_000, 50_000) } else { random.between(-3_000, 3_000) };
        }
    }
    let initial = random.set(n, sets, 1_000_000);
    let input = random.set(n, sets, 200_000);
    let directions = (0..directions)
        .map(|_| {
            let mut direction = random.point(n, -1_000, 1_000);
            direction[0] = random.between(1, 1_000);
            direction
        })
        .collect();
    Model { n, steps, matrix, drift: [0; 6], initial, input, directions, guards: Vec::new() }
}

/// A drift for a model of this seed and n that `calm` makes.
pub fn drift(seed: u64, n: usize) -> Six {
    Random::new(seed).point(n, -200_000, 200_000)
}

/// The model with the shortest file: one coordinate, one vertex, no input and one direction.
pub fn shortest(seed: u64) -> Model {
    let initial = Set { form: Form::Vertices, points: vec![Random::new(seed).point(1, 1, 1_000)] };
    Model { initial, input: Set::zero_box(), ..calm(seed, 1, 256, Sets::Boxes, 1) }
}

/// A model with a longest file (File 9), where its rows are fitted; with scaled ones its one file is a longest of these (Writing 6).
pub fn longest(seed: u64) -> Model {
    let guards = (0..16).map(|k| (k, 100_000_000 * k as i64)).collect();
    Model { drift: drift(seed, 6), guards, ..calm(seed, 6, 256, Sets::Vertices, 16) }
}

/// A model with about the largest listing there is: 16 directions and guards, 256 steps, long negative bounds and long slacks.
pub fn wordy(seed: u64) -> Model {
    let mut random = Random::new(seed);
    let mut matrix = [[0; 6]; 6];
    for (row, entries) in matrix.iter_mut().enumerate() {
        for (column, entry) in entries.iter_mut().enumerate() {
            *entry = if column == row { random.between(65_480, 65_500) } else { random.between(0, 5) };
        }
    }
    let mut far = || random.vertices(6, -1_048_576, -1_040_000);
    let (initial, input) = (far(), far());
    let directions = (0..16).map(|_| random.point(6, 900, 1_000)).collect();
    let guards = (0..16).map(|k| (k, -100_000_000_000 * k as i64)).collect();
    Model { n: 6, steps: 256, matrix, drift: [0; 6], initial, input, directions, guards }
}
