//! What the Rust tests and the measurements share.
//!
//! `specification`, `recurrence` and `calm` are the specification in Rust, written apart from the Rattle code (decision 38): the
//! reader; the sweep, the verdicts and one step; calm models and the limits of their slacks. `records` makes files, also the one
//! file of a model ("Writing"), `listing` has the text of a listing, and `calls` asks the interface for what a listing tells.
//! Only `calls` calls the proved routines; from the bindings the others take the types of an answer, `Verdict` and `Refusal`.

pub mod calls;
pub mod calm;
pub mod listing;
pub mod records;
pub mod recurrence;
pub mod specification;
