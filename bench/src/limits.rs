//! The questions about a calm model against reading the same model: whether it is calm, the limit of its slacks at the last step,
//! and the steps within that limit.
//!
//! A call on a file with a byte behind its end reads all of it and refuses it by 10. What a call on the file itself takes beyond
//! that is "beyond reading": the test of the model, if any, and the answer.

use crate::clock::{measure, Contender};
use crate::writing::{contender, subject, MODELS};
use crate::{fail, spend, Subject};
use pepperscarp::Refusal;
use std::hint::black_box;
use support::calm;
use support::specification::Model;

/// The questions, as `count` takes them, and what a table calls them. `plain-` before a question asks plain Rust.
const QUESTIONS: [(&str, &str); 3] =
    [("calm", "calm"), ("limit", "the limit of the last step"), ("within", "the steps within it")];

/// One call that reads a file and answers a question.
fn ask(question: &str, bytes: &[u8], last: usize, limit: u64) {
    match question {
        "calm" => spend(pepperscarp::calm(black_box(bytes))),
        "limit" => spend(pepperscarp::slack_limit(black_box(bytes), black_box(last))),
        _ => spend(pepperscarp::steps_within(black_box(bytes), black_box(limit))),
    }
}

/// The same of a model value, which is neither read nor tested.
fn ask_plain(question: &str, model: &Model, limit: u64) {
    match question {
        "calm" => spend(calm::is_calm(black_box(model))),
        "limit" => spend(calm::slack_limit(black_box(model), black_box(model.steps))),
        _ => spend(calm::steps_within(black_box(model), black_box(limit))),
    }
}

/// The limit of the last step of a model that is calm.
fn last_limit(model: &Model) -> u64 {
    calm::slack_limit(model, model.steps).unwrap_or_else(|_| fail("a model that is measured isn't calm"))
}

/// All answers are those of plain Rust, and the file with a byte behind it is refused by 10, or the run ends here.
pub fn agree(subject: &Subject) {
    let (model, bytes) = (&subject.model, &subject.bytes);
    let mut same = pepperscarp::calm(bytes) == Ok(true) && calm::is_calm(model);
    let mut slacks = vec![0, 1, u64::MAX];
    for step in 0..=model.steps + 1 {
        let limit = calm::slack_limit(model, step);
        same = same && pepperscarp::slack_limit(bytes, step) == limit;
        slacks.extend(limit.into_iter().flat_map(|limit| [limit - 1, limit]));
    }
    slacks.dedup();
    same = same && slacks.iter().all(|slack| pepperscarp::steps_within(bytes, *slack) == calm::steps_within(model, *slack));
    if !same {
        fail("plain Rust gives other answers about a calm model");
    }
    let (behind, refusal) = (&subject.byte_behind, Refusal::File { number: 10, offset: bytes.len() });
    let replies = [
        pepperscarp::calm(behind).err(),
        pepperscarp::slack_limit(behind, model.steps).err(),
        pepperscarp::steps_within(behind, u64::MAX).err(),
    ];
    if replies != [Some(refusal); 3] {
        fail("a file with a byte behind its end isn't refused by 10");
    }
}

/// Reading and the questions for each model, all by turns; the run ends if testing whether a model is calm takes longer than
/// reading it.
pub fn times(rounds: usize) {
    let mut contenders: Vec<Contender> = Vec::new();
    for (name, _) in MODELS {
        for (question, _) in QUESTIONS {
            let Subject { model, bytes, byte_behind, .. } = subject(name);
            let (last, limit) = (model.steps, last_limit(&model));
            contenders.push(contender("reading", move || ask(question, &byte_behind, last, limit)));
            contenders.push(contender("call", move || ask(question, &bytes, last, limit)));
            contenders.push(contender("plain Rust", move || ask_plain(question, &model, limit)));
        }
    }
    let mut times = measure(&mut contenders, rounds).into_iter();
    let mut next = || times.next().expect("three times for each question about each model");
    let mut most = 0f64;
    println!("## Calm models, against reading the model\n");
    println!("| | asked | reading ns | call ns | beyond reading ns | quartiles | to reading | plain Rust ns |");
    println!("|---|---|---|---|---|---|---|---|");
    for (name, told) in MODELS {
        agree(&subject(name));
        for (question, asked) in QUESTIONS {
            let (read, call, plain) = (next(), next(), next());
            let beyond = call.less("beyond reading", &read);
            let (spread, ratio) = (beyond.spread(), beyond.over(&read).median);
            println!(
                "| {told} | {asked} | {:.0} | {:.0} | {:.0} | {:.0} to {:.0} | {ratio:.2} | {:.0} |",
                read.spread().median,
                call.spread().median,
                spread.median,
                spread.low,
                spread.high,
                plain.spread().median
            );
            if question == "calm" {
                most = most.max(ratio);
            }
        }
    }
    println!();
    if most > 1.0 {
        fail("testing whether a model is calm takes longer than reading it");
    }
}

/// Whether `count` counts this here.
pub fn is_counted(who: &str) -> bool {
    let question = who.strip_prefix("plain-").unwrap_or(who);
    who == "calm-read" || QUESTIONS.iter().any(|(name, _)| *name == question)
}

/// One thing, so often, for an instruction counter.
pub fn count(who: &str, model: &str, times: usize) {
    let Subject { model, bytes, byte_behind, .. } = subject(model);
    let limit = last_limit(&model);
    for _ in 0..times {
        match who.strip_prefix("plain-") {
            Some(question) => ask_plain(question, &model, limit),
            None if who == "calm-read" => ask("calm", &byte_behind, model.steps, limit),
            None => ask(who, &bytes, model.steps, limit),
        }
    }
}
