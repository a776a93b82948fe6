//! Writing a model's one file against reading the same model.
//!
//! A call on a file with a byte behind its end reads all of it and refuses it by 10. What a call on the file itself takes beyond that
//! is writing: the test of the model, and its bytes.

use crate::clock::{measure, Contender};
use crate::models::{longest, shortest, Sets};
use crate::{fail, plain, spend, Size, Subject, SEED};
use pepperscarp::Refusal;
use std::hint::black_box;

/// The models, as `count` takes them, and what a table calls them.
pub const MODELS: [(&str, &str); 4] =
    [("shortest", "the shortest file"), ("boxes", "boxes"), ("vertices", "16 vertices"), ("longest", "the longest file")];

pub fn subject(name: &str) -> Subject {
    match name {
        "shortest" => Subject::new(shortest(SEED)),
        "boxes" => Subject::new(Size::FULL.model()),
        "vertices" => Subject::new(Size { sets: Sets::Vertices, ..Size::FULL }.model()),
        "longest" => Subject::fitted(longest(SEED)),
        _ => fail("MODEL is shortest, boxes, vertices or longest"),
    }
}

/// What is written is what plain Rust writes, and the file with a byte behind it is refused by 10 there, or the run ends here.
pub fn agree(subject: &mut Subject) {
    let bytes = plain::write(&subject.model);
    if subject.write() != Ok(bytes.len()) || subject.out[..bytes.len()] != bytes {
        fail("plain Rust writes another file");
    }
    if subject.read() != Err(Refusal::File { number: 10, offset: subject.bytes.len() }) {
        fail("a file with a byte behind its end isn't refused by 10");
    }
}

/// Sixteen calls in a turn.
pub fn contender(name: &'static str, mut call: impl FnMut() + 'static) -> Contender {
    Contender { name, units: 16, turn: Box::new(move || (0..16).for_each(|_| call())) }
}

/// Reading and writing of each model, all by turns; the run ends where writing takes longer than reading.
pub fn times(rounds: usize) {
    let mut contenders = Vec::new();
    for (name, _) in MODELS {
        let (mut read, mut write, plain) = (subject(name), subject(name), subject(name).model);
        contenders.push(contender("reading", move || spend(read.read())));
        contenders.push(contender("call", move || spend(write.write())));
        contenders.push(contender("plain Rust", move || spend(plain::write(black_box(&plain)))));
    }
    let mut times = measure(&mut contenders, rounds).into_iter();
    let mut next = || times.next().expect("three times for each model");
    let mut most = 0f64;
    println!("## Writing the one file of a model, against reading the model\n");
    println!("| | bytes | written | reading ns | call ns | writing ns | quartiles | to reading | plain Rust ns |");
    println!("|---|---|---|---|---|---|---|---|---|");
    for (name, told) in MODELS {
        let mut subject = subject(name);
        agree(&mut subject);
        let (read, call, plain) = (next(), next(), next());
        let writing = call.less("writing", &read);
        let (spread, ratio) = (writing.spread(), writing.over(&read).median);
        println!(
            "| {told} | {} | {} | {:.0} | {:.0} | {:.0} | {:.0} to {:.0} | {ratio:.2} | {:.0} |",
            subject.bytes.len(),
            plain::write(&subject.model).len(),
            read.spread().median,
            call.spread().median,
            spread.median,
            spread.low,
            spread.high,
            plain.spread().median
        );
        most = most.max(ratio);
    }
    println!();
    if most > 1.0 {
        fail("writing a model takes longer than reading it");
    }
}

/// One thing, so often, for an instruction counter.
pub fn count(who: &str, model: &str, times: usize) {
    let mut subject = subject(model);
    for _ in 0..times {
        match who {
            "read" => spend(subject.read()),
            "write" => spend(subject.write()),
            "plain" => spend(plain::write(black_box(&subject.model))),
            _ => fail("WHO is read, write or plain"),
        }
    }
}
