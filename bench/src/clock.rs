//! Interleaved measurement. Each round gives every contender one turn, in an order that rotates, so that a slow spell of the machine
//! meets all of them. Medians and quartiles are told; ratios are taken round by round before their median.

use std::time::Instant;

/// One contender: a name, what it does in a turn, and how many units of work that is.
pub struct Contender {
    pub name: &'static str,
    pub units: usize,
    pub turn: Box<dyn FnMut()>,
}

/// The nanoseconds of one contender, round by round.
pub struct Times {
    pub name: &'static str,
    pub rounds: Vec<f64>,
}

/// Median and quartiles.
pub struct Spread {
    pub low: f64,
    pub median: f64,
    pub high: f64,
}

impl Times {
    pub fn spread(&self) -> Spread {
        let mut sorted = self.rounds.clone();
        sorted.sort_by(f64::total_cmp);
        let at = |share: usize| sorted[(sorted.len() - 1) * share / 4];
        Spread { low: at(1), median: at(2), high: at(3) }
    }

    fn with(&self, name: &'static str, other: &Times, figure: impl Fn(f64, f64) -> f64) -> Times {
        let rounds = self.rounds.iter().zip(&other.rounds).map(|(a, b)| figure(*a, *b)).collect();
        Times { name, rounds }
    }

    /// What is left without another, round by round.
    pub fn less(&self, name: &'static str, other: &Times) -> Times {
        self.with(name, other, |a, b| a - b)
    }

    /// The ratio to another, round by round.
    pub fn over(&self, other: &Times) -> Spread {
        self.with("ratio", other, |a, b| a / b).spread()
    }
}

/// The times of the contenders, in their order, for one unit.
pub fn measure(contenders: &mut [Contender], rounds: usize) -> Vec<Times> {
    let warm_up = 1 + rounds / 20;
    let count = contenders.len();
    let mut times: Vec<Times> = contenders.iter().map(|c| Times { name: c.name, rounds: Vec::new() }).collect();
    for round in 0..warm_up + rounds {
        for turn in 0..count {
            let which = (turn + round) % count;
            let start = Instant::now();
            (contenders[which].turn)();
            let spent = start.elapsed().as_nanos() as f64 / contenders[which].units as f64;
            if round >= warm_up {
                times[which].rounds.push(spent);
            }
        }
    }
    times
}
