//! Measures the sweep through the C interface against Rust of the same recurrence, and writing a model's one file and the questions
//! about a calm model against reading it. Called by bench/run:
//!
//!     bench report ROUNDS           agreement, the sweep, how its time grows, writing, and calm models, as Markdown
//!     bench count WHO N SETS TIMES  does one thing so often, for an instruction counter; SETS may end in `-drift`
//!     bench count WHO MODEL TIMES   the same for reading, writing and the questions about a calm model
//!     bench file PATH               writes the model with the largest listing
//!     bench listing PATH            prints the listing of a model file, from the calls alone

mod clock;
mod float;
mod limits;
mod models;
mod plain;
mod tuned;
mod writing;

use clock::{measure, Contender, Times};
use models::{calm, drift, wordy, Sets};
use pepperscarp::{Refusal, LISTING_ROOM, WRITE_ROOM};
use std::hint::black_box;
use std::process::exit;
use support::records::{file, fitted, of_model, Record};
use support::specification::Model;
use support::{calls, listing};

const SEED: u64 = 20_260_701;

/// A model with its file, the file with a byte behind its end, and room for the results.
struct Subject {
    model: Model,
    bytes: Vec<u8>,
    byte_behind: Vec<u8>,
    bounds: Vec<i64>,
    slacks: Vec<i64>,
    out: [u8; WRITE_ROOM],
}

impl Subject {
    fn new(model: Model) -> Subject {
        let records = of_model(&model);
        Subject::saved(model, &records)
    }

    /// With fitted rows, whose numbers are those of the scaled ones.
    fn fitted(model: Model) -> Subject {
        let records: Vec<Record> = of_model(&model).into_iter().map(fitted_row).collect();
        Subject::saved(model, &records)
    }

    fn saved(model: Model, records: &[Record]) -> Subject {
        let bytes = file(records);
        let byte_behind = [&bytes[..], &[0xFF]].concat();
        let list = vec![0; model.steps + 1];
        Subject { model, bytes, byte_behind, bounds: list.clone(), slacks: list, out: [0; WRITE_ROOM] }
    }

    /// One call that reads the file and sweeps.
    fn call(&mut self, direction: usize) -> Result<u32, Refusal> {
        pepperscarp::sweep(black_box(&self.bytes), black_box(direction), &mut self.bounds, &mut self.slacks)
    }

    /// One call that is refused by 13: it reads the file and tests the model, and no more.
    fn refused(&mut self, direction: usize) -> Result<u32, Refusal> {
        pepperscarp::sweep(black_box(&self.bytes), black_box(direction), &mut self.bounds[1..], &mut self.slacks)
    }

    fn plain(&mut self, direction: usize) -> Result<u32, Refusal> {
        plain::sweep(black_box(&self.model), black_box(direction), &mut self.bounds, &mut self.slacks)
    }

    /// One call that reads the file, tests the model and writes its one file; its length.
    fn write(&mut self) -> Result<usize, Refusal> {
        pepperscarp::write(black_box(&self.bytes), &mut self.out).map(<[u8]>::len)
    }

    /// One call that reads the whole file and refuses it by 10: no model is tested, and nothing is written.
    fn read(&mut self) -> Result<usize, Refusal> {
        pepperscarp::write(black_box(&self.byte_behind), &mut self.out).map(<[u8]>::len)
    }

    /// Laying out the model is a part of it.
    fn tuned(&mut self, direction: usize) -> Result<u32, Refusal> {
        let laid = tuned::lay(black_box(&self.model));
        tuned::sweep(&laid, black_box(direction), &mut self.bounds, &mut self.slacks)
    }
}

/// A scaled row as a fitted one; any other record as it is.
fn fitted_row(record: Record) -> Record {
    if record.kind != 0x02 {
        return record;
    }
    let number = |entry: &[u8]| f64::from(i32::from_le_bytes(entry.try_into().expect("four bytes"))) / 65_536.0;
    let patterns: Vec<u64> = record.body[1..].chunks(4).map(|entry| number(entry).to_bits()).collect();
    fitted(record.body[0], &patterns)
}

/// A result that counts as used.
fn spend<T>(result: T) {
    let _ = black_box(result);
}

/// One float sweep.
fn float_sweep(model: &Model, direction: usize, values: &mut [f64]) {
    float::sweep(black_box(model), black_box(direction), values);
    black_box(values);
}

fn main() {
    let arguments: Vec<String> = std::env::args().skip(1).collect();
    let arguments: Vec<&str> = arguments.iter().map(String::as_str).collect();
    match arguments[..] {
        ["report", rounds] => report(number(rounds)),
        ["count", who, n, sets, times] => count(who, number(n), sets, number(times)),
        ["count", who, model, times] if limits::is_counted(who) => limits::count(who, model, number(times)),
        ["count", who, model, times] => writing::count(who, model, number(times)),
        ["file", path] => std::fs::write(path, largest()).unwrap_or_else(|error| fail(&format!("{path}: {error}"))),
        ["listing", path] => match std::fs::read(path) {
            Ok(bytes) => print!("{}", listing::text(calls::listing(&bytes))),
            Err(error) => fail(&format!("{path}: {error}")),
        },
        _ => fail("usage: bench report ROUNDS | count WHO N SETS TIMES | count WHO MODEL TIMES | file PATH | listing PATH"),
    }
}

fn fail(message: &str) -> ! {
    eprintln!("bench: {message}");
    exit(2);
}

fn number(word: &str) -> usize {
    word.parse().unwrap_or_else(|_| fail(&format!("{word} is not a number")))
}

/// Everything; the sweep by itself in so many rounds, the rest in half as many.
fn report(rounds: usize) {
    agreement();
    sweep_times(rounds);
    growth_with_steps(rounds / 2);
    growth_with_coordinates(rounds / 2);
    growth_with_directions(rounds / 2);
    writing::times(rounds / 2);
    limits::times(rounds / 2);
    listing_times(rounds / 2);
}

// Agreement.

/// All results of all versions agree, or the run ends here. The float version: how far it is off.
fn agreement() {
    let (mut compared, mut written) = (0usize, 0usize);
    let (mut below, mut above, mut outside, mut figures) = (0f64, 0f64, 0usize, 0usize);
    for (sets, drift) in CASES {
        for n in 1..=6 {
            for steps in [1, 32, 64, 128, 256] {
                let size = Size { n, steps, sets, drift, ..Size::FULL };
                let mut subject = Subject::new(size.model());
                let mut with_fitted = Subject::fitted(size.model());
                let mut values = vec![0.0; steps + 1];
                for saved in [&mut subject, &mut with_fitted] {
                    writing::agree(saved);
                    limits::agree(saved);
                    written += 1;
                }
                for direction in 0..16 {
                    let spare =
                        subject.call(direction).unwrap_or_else(|refusal| fail(&format!("the sweep is refused: {refusal}")));
                    let (bounds, slacks) = (subject.bounds.clone(), subject.slacks.clone());
                    let plain = subject.plain(direction);
                    let same = (&subject.bounds, &subject.slacks) == (&bounds, &slacks);
                    let tuned = subject.tuned(direction);
                    let same = same && (&subject.bounds, &subject.slacks) == (&bounds, &slacks);
                    let read = with_fitted.call(direction);
                    let same = same && (&with_fitted.bounds, &with_fitted.slacks) == (&bounds, &slacks);
                    if !same || plain != Ok(spare) || tuned != Ok(spare) || read != Ok(spare) {
                        fail(&format!("results differ: n {n}, K {steps}, {}, direction {direction}", size.name()));
                    }
                    if subject.refused(direction) != Err(Refusal::WrongLength) {
                        fail("a list that is too short isn't refused by 13");
                    }
                    compared += 1;
                    float_sweep(&subject.model, direction, &mut values);
                    for k in 0..=steps {
                        let off = values[k] - bounds[k] as f64;
                        below = below.max(-off);
                        above = above.max(off);
                        outside += usize::from(off > 0.0 || -off > slacks[k] as f64);
                        figures += 1;
                    }
                }
            }
        }
    }
    println!("## Agreement\n");
    println!(
        "{compared} sweeps, half of them with a drift: bounds, slacks and spare figures of the C interface, with scaled and with \
         fitted rows, plain and tuned Rust agree to the last number. {written} files: the C interface and plain Rust write the \
         same bytes, and give the same limits of slacks and steps within them."
    );
    println!(
        "The float version, without error terms, is at most {below:.1} counts below and {above:.6} above the bound; of its {figures} \
         figures {outside} lie outside bound - slack to bound.\n"
    );
}

// Times.

/// The size of a model.
#[derive(Clone, Copy)]
struct Size {
    n: usize,
    steps: usize,
    sets: Sets,
    directions: usize,
    drift: bool,
}

/// The sets of a model, and whether it has a drift.
const CASES: [(Sets, bool); 4] = [(Sets::Boxes, false), (Sets::Vertices, false), (Sets::Boxes, true), (Sets::Vertices, true)];

impl Size {
    const FULL: Size = Size { n: 6, steps: 256, sets: Sets::Boxes, directions: 16, drift: false };

    fn name(self) -> String {
        format!("{}{}", self.sets.name(), if self.drift { ", a drift" } else { "" })
    }

    fn model(self) -> Model {
        let mut model = calm(SEED, self.n, self.steps, self.sets, self.directions);
        if self.drift {
            model.drift = drift(SEED, self.n);
        }
        model
    }

    /// A contender that takes all directions in turn, at least sixteen sweeps.
    fn contender(self, name: &'static str, mut sweep: impl FnMut(usize) + 'static) -> Contender {
        let repeats = 16usize.div_ceil(self.directions);
        let turn = move || (0..repeats).for_each(|_| (0..self.directions).for_each(&mut sweep));
        Contender { name, units: repeats * self.directions, turn: Box::new(turn) }
    }

    fn contenders(self) -> [Contender; 6] {
        let subject = || Subject::new(self.model());
        let (mut call, mut refused, mut plain, mut tuned) = (subject(), subject(), subject(), subject());
        let mut with_fitted = Subject::fitted(self.model());
        let model = self.model();
        let mut values = vec![0.0; self.steps + 1];
        [
            self.contender("call: reading, model test and sweep", move |d| spend(call.call(d))),
            self.contender("call refused by 13: reading and model test", move |d| spend(refused.refused(d))),
            self.contender("the same with fitted rows", move |d| spend(with_fitted.refused(d))),
            self.contender("plain Rust", move |d| spend(plain.plain(d))),
            self.contender("tuned Rust", move |d| spend(tuned.tuned(d))),
            self.contender("float, without error terms", move |d| float_sweep(&model, d, &mut values)),
        ]
    }
}

/// The times of one sweep of a model.
struct Measured {
    call: Times,
    refused: Times,
    fitted: Times,
    sweep: Times,
    plain: Times,
    tuned: Times,
    float: Times,
}

/// The times of one sweep for each size, all measured by turns.
fn times_of(sizes: &[Size], rounds: usize) -> Vec<Measured> {
    let mut contenders: Vec<Contender> = sizes.iter().flat_map(|size| size.contenders()).collect();
    let mut times = measure(&mut contenders, rounds).into_iter();
    let mut next = || times.next().expect("six times for each size");
    sizes
        .iter()
        .map(|_| {
            let (call, refused, fitted, plain, tuned, float) = (next(), next(), next(), next(), next(), next());
            let sweep = call.less("sweep: the first less the second", &refused);
            Measured { call, refused, fitted, sweep, plain, tuned, float }
        })
        .collect()
}

fn sweep_times(rounds: usize) {
    println!("## One sweep, n = 6, K = 256\n");
    let all = CASES.map(|(sets, drift)| Size { sets, drift, ..Size::FULL });
    for (size, times) in all.iter().zip(times_of(&all, rounds)) {
        println!("| {} | ns, median | quartiles | to tuned | to plain |\n|---|---|---|---|---|", size.name());
        for one in [&times.call, &times.refused, &times.fitted, &times.sweep, &times.plain, &times.tuned, &times.float] {
            let spread = one.spread();
            println!(
                "| {} | {:.0} | {:.0} to {:.0} | {:.2} | {:.2} |",
                one.name,
                spread.median,
                spread.low,
                spread.high,
                one.over(&times.tuned).median,
                one.over(&times.plain).median
            );
        }
        let (tuned, plain) = (times.sweep.over(&times.tuned), times.sweep.over(&times.plain));
        println!(
            "\nSweep to tuned {:.2} (quartiles {:.2} to {:.2}), to plain {:.2} ({:.2} to {:.2}).\n",
            tuned.median, tuned.low, tuned.high, plain.median, plain.low, plain.high
        );
    }
}

fn growth_with_steps(rounds: usize) {
    println!("## With the number of steps, n = 6\n");
    println!("| K | boxes: sweep ns | ns for a step | 16 vertices: sweep ns | ns for a step |\n|---|---|---|---|---|");
    let all = [32, 64, 96, 128, 192, 256];
    let boxes = times_of(&all.map(|steps| Size { steps, ..Size::FULL }), rounds);
    let vertices = times_of(&all.map(|steps| Size { steps, sets: Sets::Vertices, ..Size::FULL }), rounds);
    for (steps, (boxes, vertices)) in all.iter().zip(boxes.iter().zip(&vertices)) {
        let (a, b) = (boxes.sweep.spread().median, vertices.sweep.spread().median);
        let turns = (steps + 1) as f64;
        println!("| {steps} | {a:.0} | {:.1} | {b:.0} | {:.1} |", a / turns, b / turns);
    }
    println!();
}

fn growth_with_coordinates(rounds: usize) {
    println!("## With the number of coordinates, K = 256\n");
    println!("| n | boxes: sweep ns | to tuned | to plain | 16 vertices: sweep ns | to tuned | to plain |\n|---|---|---|---|---|---|---|");
    let all = [1, 2, 3, 4, 5, 6];
    let boxes = times_of(&all.map(|n| Size { n, ..Size::FULL }), rounds);
    let vertices = times_of(&all.map(|n| Size { n, sets: Sets::Vertices, ..Size::FULL }), rounds);
    for (n, pair) in all.iter().zip(boxes.iter().zip(&vertices)) {
        print!("| {n} |");
        for times in [pair.0, pair.1] {
            let (tuned, plain) = (times.sweep.over(&times.tuned), times.sweep.over(&times.plain));
            print!(" {:.0} | {:.2} | {:.2} |", times.sweep.spread().median, tuned.median, plain.median);
        }
        println!();
    }
    println!();
}

fn growth_with_directions(rounds: usize) {
    println!("## With the number of directions, n = 6, K = 256, boxes, all directions swept\n");
    println!("| directions | all sweeps, ns | for each direction | with reading the file at each call | for each direction |\n|---|---|---|---|---|");
    let all = [1, 2, 4, 8, 12, 16];
    for (directions, times) in all.iter().zip(times_of(&all.map(|directions| Size { directions, ..Size::FULL }), rounds)) {
        let (sweep, call) = (times.sweep.spread().median, times.call.spread().median);
        let count = f64::from(*directions as u32);
        println!("| {directions} | {:.0} | {sweep:.0} | {:.0} | {call:.0} |", count * sweep, count * call);
    }
    println!();
}

/// The largest listing, written by the routine and by Rust that formats the results of the calls.
fn listing_times(rounds: usize) {
    let bytes = largest();
    let mut out = vec![0; LISTING_ROOM];
    let text = listing::text(calls::listing(&bytes));
    if pepperscarp::listing(&bytes, &mut out) != Some(text.as_bytes()) {
        fail("the listing isn't what the calls give");
    }
    let copy = bytes.clone();
    let mut contenders = [
        Contender {
            name: "the routine `listing`",
            units: 1,
            turn: Box::new(move || spend(pepperscarp::listing(black_box(&bytes), &mut out).map(<[u8]>::len))),
        },
        Contender {
            name: "Rust that calls and formats",
            units: 1,
            turn: Box::new(move || spend(listing::text(calls::listing(black_box(&copy))))),
        },
    ];
    println!("## The largest listing, {} bytes, in one process\n", text.len());
    println!("| | µs, median | quartiles |\n|---|---|---|");
    for times in measure(&mut contenders, rounds) {
        let spread = times.spread();
        println!("| {} | {:.0} | {:.0} to {:.0} |", times.name, spread.median / 1e3, spread.low / 1e3, spread.high / 1e3);
    }
    println!();
}

// One thing, so often, for an instruction counter.

fn count(who: &str, n: usize, sets: &str, times: usize) {
    let (sets, drift) = sets.strip_suffix("-drift").map_or((sets, false), |sets| (sets, true));
    let sets = match sets {
        "boxes" => Sets::Boxes,
        "vertices" => Sets::Vertices,
        _ => fail("SETS is boxes or vertices, or one of these and -drift"),
    };
    if !(1..=6).contains(&n) {
        fail("N is 1 to 6");
    }
    let size = Size { n, sets, drift, ..Size::FULL };
    let mut subject = Subject::new(size.model());
    let mut with_fitted = Subject::fitted(size.model());
    let mut values = vec![0.0; 257];
    for k in 0..times {
        let direction = k % 16;
        match who {
            "call" => spend(subject.call(direction)),
            "refused" => spend(subject.refused(direction)),
            "fitted" => spend(with_fitted.refused(direction)),
            "plain" => spend(subject.plain(direction)),
            "tuned" => spend(subject.tuned(direction)),
            "float" => float_sweep(&subject.model, direction, &mut values),
            _ => fail("WHO is call, refused, fitted, plain, tuned or float"),
        }
    }
}

// The largest listing.

/// The file of the model with the largest listing.
fn largest() -> Vec<u8> {
    file(&of_model(&wordy(SEED)))
}
