//! Tests of the bindings, and through them of the archive that they link, against the specification in Rust (the crate `support`).
//!
//! Optimised by the profile `test`, with overflow checks. Whatever is lent stands between sentinels (`lent.rs`). Tests that draw at random use
//! fixed seeds and assert that each kind of reply came often enough.

mod beyond;
mod calm;
mod drift;
mod figures;
mod fitted;
mod lent;
mod listings;
mod makers;
mod refusals;
mod steps;
mod sweeps;
mod writing;
