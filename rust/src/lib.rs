//! Proved envelopes of linear models, step by step.
//!
//! Safe bindings of Pepperscarp's C interface. The routines behind it are proved: [`sweep`] leaves exactly the bounds and slacks
//! of the specification (docs/SPECIFICATION.md), [`judge`] answers exactly its verdicts, [`listing`] writes exactly its text,
//! [`write`] exactly the one file of a model, [`calm`], [`slack_limit`] and [`steps_within`] answer exactly whether and how far
//! slacks are limited, and every file, number and length gets its reply. This crate adds the types and no arithmetic. It is tested
//! against a version of the specification in Rust, and not proved.
//!
//! A model is the bytes of a model file. What a call is lent has the whole result, or on a refusal is exactly as it was. Nothing is
//! kept from one call to the next, and calls from several threads do not disturb each other. A call takes at most 32,768 bytes of
//! stack; `c/pepperscarp.h` tells what each function takes.
//!
//! ```
//! // One coordinate, 2 steps, the matrix 1, initial [2,5], input [-1,1], direction 3, guards on it at levels 20 and 21.
//! let mut file = vec![0x01, 1, 2, 0, 0x02, 0];
//! let six = |first: i32| [first, 0, 0, 0, 0, 0].map(i32::to_le_bytes).concat();
//! file.extend(six(65_536));
//! for (kind, first) in [(0x10, 2), (0x11, 5), (0x20, -1), (0x21, 1), (0x30, 3)] {
//!     file.push(kind);
//!     file.extend(six(first));
//! }
//! file.extend([0x40, 0, 20, 0, 0, 0, 0, 0, 0, 0]);
//! file.extend([0x40, 0, 21, 0, 0, 0, 0, 0, 0, 0, 0xFF]);
//!
//! let (mut bounds, mut slacks) = ([0; 3], [0; 3]);
//! let spare = pepperscarp::sweep(&file, 0, &mut bounds, &mut slacks)?;
//! assert_eq!((spare, bounds, slacks), (8, [15, 18, 21], [0, 0, 0]));
//! let verdict = pepperscarp::judge(&file, 0, &mut bounds, &mut slacks)?;
//! assert_eq!(verdict, pepperscarp::Verdict::Hit(2));
//! // The largest bound is equal to the second level and not above it.
//! let verdict = pepperscarp::judge(&file, 1, &mut bounds, &mut slacks)?;
//! assert_eq!(verdict, pepperscarp::Verdict::Clear);
//!
//! // With its row as the number 1.0 the same model is saved otherwise; what is written for it is the first file.
//! let row = [vec![0x03, 0], [1.0f64, 0.0, 0.0, 0.0, 0.0, 0.0].map(f64::to_le_bytes).concat()].concat();
//! let otherwise = [&file[..4], &row, &file[30..]].concat();
//! let mut out = [0; pepperscarp::WRITE_ROOM];
//! assert_eq!(pepperscarp::write(&otherwise, &mut out)?, file);
//! # Ok::<(), pepperscarp::Refusal>(())
//! ```

#![deny(missing_docs)]

use std::error::Error;
use std::fmt;

/// The length that is enough for the lists of every model: 256 steps, and step 0.
pub const LONGEST_LIST: usize = 257;

/// The steps of a model whose file's head says 0 (File 4).
pub const DEFAULT_STEPS: usize = 120;

/// The room that is enough for every listing, in bytes.
pub const LISTING_ROOM: usize = 270_000;

/// The room that is enough for every file that is written, in bytes (Writing 6).
pub const WRITE_ROOM: usize = 1_546;

/// What is said of a guard (Verdicts 2 to 4). A value, direction · state, reaches its level only above it (Verdicts 1): a value
/// equal to the level does not reach it. A guard at [`i64::MIN`] is hit at step 0, and one at [`i64::MAX`] is clear.
#[derive(Clone, Copy, PartialEq, Eq, Hash, Debug)]
pub enum Verdict {
    /// Some run is above the level at this step, the first for which that is certain: bound - slack is above the level. A run may
    /// be above it earlier.
    Hit(usize),
    /// No step is a certain hit, but the bound of this step, the first such, is above the level. The exact largest value there is
    /// no farther from the level than the slack.
    Unknown(usize),
    /// No run is above the level at any step. The largest bound may be equal to it.
    Clear,
}

/// Why a call was refused. What it was lent is as it was.
#[derive(Clone, Copy, PartialEq, Eq, Hash, Debug)]
pub enum Refusal {
    /// The bytes are no model: the number that says why (Refusals 1 to 10, 15 to 17), and the offset that goes with it (Reading 2).
    File {
        /// The number, 1 to 10 or 15 to 17.
        number: u8,
        /// Where the record at fault begins; for 10, where the bytes behind the end begin; the length where no byte is left.
        offset: usize,
    },
    /// Number 11: a value breaks a rule. Only [`step`] answers it, since a file that was read breaks none.
    Invalid,
    /// Number 12: no such direction, or no such guard.
    NoSuchNumber,
    /// Number 13: a lent list has fewer or more than K + 1 elements.
    WrongLength,
    /// Number 14: the working figures of the direction pass their limit, first at this step.
    Growth(usize),
    /// Number 22: the lent slice is shorter than the file that would be written.
    TooShort,
    /// Number 26: the model is not calm; no limit of its slacks is known.
    NotCalm,
    /// Number 27: the step is beyond K.
    NoSuchStep,
    /// Number 28: the slack is 0 or 1, below the limit of step 0, which is 2.
    SlackTooSmall,
}

impl Refusal {
    /// The number of the refusal, 1 to 17, 22 or 26 to 28, by the clauses "Refusals" of the specification.
    pub fn number(self) -> u8 {
        match self {
            Refusal::File { number, .. } => number,
            Refusal::Invalid => 11,
            Refusal::NoSuchNumber => 12,
            Refusal::WrongLength => 13,
            Refusal::Growth(_) => 14,
            Refusal::TooShort => 22,
            Refusal::NotCalm => 26,
            Refusal::NoSuchStep => 27,
            Refusal::SlackTooSmall => 28,
        }
    }
}

/// Why a file is refused, by its number.
fn reason(number: u8) -> &'static str {
    match number {
        1 => "the file ends where a record should stand, or within one",
        2 => "a kind is unknown",
        3 => "a record of this kind may not stand here",
        4 => "n or the steps are out of range",
        5 => "a row is out of turn, or an entry of a scaled row too large",
        6 => "a set reaches too far, or its upper corner is below its lower",
        7 => "an entry of a direction is too large, or all are zero",
        8 => "a guard is on a direction that is not there",
        9 => "there is one generator, vertex, direction or guard too many",
        10 => "bytes follow the end",
        15 => "an entry of a fitted row is not finite, or beyond 2 in magnitude",
        16 => "an entry beyond n is not zero",
        17 => "the drift is too large, or the input set reaches too far together with it",
        _ => "the file is no model",
    }
}

impl fmt::Display for Refusal {
    fn fmt(&self, f: &mut fmt::Formatter<'_>) -> fmt::Result {
        match self {
            Refusal::File { number, offset } => write!(f, "refused {number} at {offset}: {}", reason(*number)),
            Refusal::Invalid => write!(f, "refused 11: a value breaks a rule"),
            Refusal::NoSuchNumber => write!(f, "refused 12: no such direction or guard"),
            Refusal::WrongLength => write!(f, "refused 13: a list has other than K + 1 elements"),
            Refusal::Growth(step) => write!(f, "refused 14: growth at step {step}"),
            Refusal::TooShort => write!(f, "refused 22: the file that would be written is longer than the room for it"),
            Refusal::NotCalm => write!(f, "refused 26: the model is not calm"),
            Refusal::NoSuchStep => write!(f, "refused 27: the step is beyond K"),
            Refusal::SlackTooSmall => write!(f, "refused 28: the slack is below 2, the limit of step 0"),
        }
    }
}

impl Error for Refusal {}

/// The C interface. A slice is a pointer and a length, an array a pointer.
mod c {
    extern "C" {
        pub fn pepperscarp_step(n: usize, matrix: *const i32, r: *mut i64, e: *mut i64) -> u64;

        pub fn pepperscarp_sweep(
            file: *const u8,
            file_len: usize,
            direction: usize,
            bounds: *mut i64,
            bounds_len: usize,
            slacks: *mut i64,
            slacks_len: usize,
        ) -> u64;

        pub fn pepperscarp_judge(
            file: *const u8,
            file_len: usize,
            guard: usize,
            bounds: *mut i64,
            bounds_len: usize,
            slacks: *mut i64,
            slacks_len: usize,
        ) -> u64;

        pub fn pepperscarp_listing(file: *const u8, file_len: usize, out: *mut u8, out_len: usize) -> usize;

        pub fn pepperscarp_write(file: *const u8, file_len: usize, out: *mut u8, out_len: usize) -> u64;

        pub fn pepperscarp_calm(file: *const u8, file_len: usize) -> u64;

        pub fn pepperscarp_slack_limit(file: *const u8, file_len: usize, step: usize) -> u64;

        pub fn pepperscarp_steps_within(file: *const u8, file_len: usize, slack: u64) -> u64;
    }
}

/// Verdict and figure of an answer, or its refusal. An answer is number + 256 × verdict + 65,536 × figure.
fn unpack(answer: u64) -> Result<(u8, u64), Refusal> {
    let number = answer as u8;
    let verdict = (answer >> 8) as u8;
    let figure = answer >> 16;
    match number {
        0 => Ok((verdict, figure)),
        1..=10 | 15..=17 => Err(Refusal::File { number, offset: figure as usize }),
        11 => Err(Refusal::Invalid),
        12 => Err(Refusal::NoSuchNumber),
        13 => Err(Refusal::WrongLength),
        14 => Err(Refusal::Growth(figure as usize)),
        22 => Err(Refusal::TooShort),
        26 => Err(Refusal::NotCalm),
        27 => Err(Refusal::NoSuchStep),
        28 => Err(Refusal::SlackTooSmall),
        _ => unreachable!("no routine answers number {number}"),
    }
}

/// One step of a working direction `r` with its errors `e`, in place, by the transpose of the matrix (six rows of six), and the
/// growth sum of what it left: the largest of |r| + half of e, each half rounded up. `r` counts units of 1/1,048,576 and `e` half
/// units (before version 0.4.0 units).
///
/// What lies beyond the n coordinates is zero. [`Refusal::Invalid`], with `r` and `e` as they were, for n outside 1 to 6, a matrix
/// entry beyond 131,072 in magnitude, a nonzero value beyond n, an e below 0, or a growth sum above 1,073,741,824 before the step.
pub fn step(n: usize, matrix: &[i32; 36], r: &mut [i64; 6], e: &mut [i64; 6]) -> Result<u64, Refusal> {
    // SAFETY: the routine reads 36 elements of the matrix and reads and writes six of r and of e, and keeps no pointer.
    let answer = unsafe { c::pepperscarp_step(n, matrix.as_ptr(), r.as_mut_ptr(), e.as_mut_ptr()) };
    unpack(answer).map(|(_, sum)| sum)
}

/// Bounds and slacks of direction number `direction` of the file's model for steps 0 to K, and the spare figure, 0 to 10.
///
/// No run is above `bounds[k]` at step k, and some run comes to `bounds[k] - slacks[k]`. Entries of fitted rows are rounded to
/// multiples of 1/65,536 first, and the bounds are those of the rounded matrix: a run of the numbers before rounding may pass one.
///
/// Both lists have to be K + 1 long. A file is refused by [`Refusal::File`]; then [`Refusal::NoSuchNumber`],
/// [`Refusal::WrongLength`] and [`Refusal::Growth`] are tested, in this order, and the lists keep every element. (Before version
/// 0.5.0 there was no 15, before 0.6.0 no 17, and before 0.7.0 no 16: entries beyond n were ignored.)
pub fn sweep(file: &[u8], direction: usize, bounds: &mut [i64], slacks: &mut [i64]) -> Result<u32, Refusal> {
    // SAFETY: the routine reads the file's bytes, writes within the two lists alone, which do not overlap, and keeps no pointer.
    let answer = unsafe {
        c::pepperscarp_sweep(
            file.as_ptr(),
            file.len(),
            direction,
            bounds.as_mut_ptr(),
            bounds.len(),
            slacks.as_mut_ptr(),
            slacks.len(),
        )
    };
    unpack(answer).map(|(_, spare)| spare as u32)
}

/// The verdict on guard number `guard` of the file's model, with the sweep of its direction left in the lists.
///
/// The lists and the refusals are those of [`sweep`]. Entries of fitted rows are rounded first here too, and the verdict is on the
/// bounds and the runs of the rounded matrix. (Before version 0.8.0 a value equal to the level reached it too. A level one count
/// lower in the file, -22801 in place of -22800, keeps the verdicts and steps of versions 0.4.0 to 0.7.2; [`i64::MIN`] keeps them as it
/// is.)
pub fn judge(file: &[u8], guard: usize, bounds: &mut [i64], slacks: &mut [i64]) -> Result<Verdict, Refusal> {
    // SAFETY: as for the sweep.
    let answer = unsafe {
        c::pepperscarp_judge(
            file.as_ptr(),
            file.len(),
            guard,
            bounds.as_mut_ptr(),
            bounds.len(),
            slacks.as_mut_ptr(),
            slacks.len(),
        )
    };
    match unpack(answer)? {
        (1, step) => Ok(Verdict::Hit(step as usize)),
        (2, step) => Ok(Verdict::Unknown(step as usize)),
        (3, _) => Ok(Verdict::Clear),
        (verdict, _) => unreachable!("the judge answers no verdict {verdict}"),
    }
}

/// The whole text that the program `envelope` writes for the file: its listing, or `refused N at P` for a refused file. It stands
/// at the start of `out`, whose other bytes are as they were.
///
/// `None`, with `out` as it was, where `out` has less than [`LISTING_ROOM`] bytes. (Verdicts are those of [`judge`], so they
/// changed in version 0.8.0.)
pub fn listing<'a>(file: &[u8], out: &'a mut [u8]) -> Option<&'a [u8]> {
    // SAFETY: the routine reads the file's bytes, writes within `out` alone, and keeps no pointer.
    let length = unsafe { c::pepperscarp_listing(file.as_ptr(), file.len(), out.as_mut_ptr(), out.len()) };
    match length {
        0 => None,
        _ => Some(&out[..length]),
    }
}

/// The one file of the file's model (Writing 1, Writing 2): however the model was saved, the same bytes. They stand at the start of
/// `out`, whose other bytes are as they were. [`WRITE_ROOM`] bytes suffice for every model.
///
/// The head names the steps, a fitted row becomes the scaled row of its rounded entries, a drift of zeros and an input box of zeros
/// are left out, and all else stands as it stood in the file. Reading what is written gives the same model. Two files have the same
/// bytes written for them just where their models are equal in every stored number.
///
/// A file is refused by [`Refusal::File`]; then [`Refusal::TooShort`] is tested, and `out` keeps every byte. (New in version
/// 0.7.2.)
pub fn write<'a>(file: &[u8], out: &'a mut [u8]) -> Result<&'a [u8], Refusal> {
    // SAFETY: as for the listing.
    let answer = unsafe { c::pepperscarp_write(file.as_ptr(), file.len(), out.as_mut_ptr(), out.len()) };
    unpack(answer).map(|(_, length)| &out[..length as usize])
}

/// Whether the file's model is calm (Calm 1): in each column of its matrix the magnitudes of the entries, in units of 1/65,536, sum
/// to at most 65,536. Entries of fitted rows are rounded first.
///
/// No direction of a calm model grows (Calm 6): [`sweep`] and [`judge`] never answer [`Refusal::Growth`] for it. How large its
/// slacks can become is answered by [`slack_limit`] and [`steps_within`].
///
/// A file is refused by [`Refusal::File`]. (New after version 0.8.0.)
///
/// ```
/// let six = |first: i32| [first, 0, 0, 0, 0, 0].map(i32::to_le_bytes).concat();
/// // One coordinate, 4 steps, one entry, the vertex 0 and direction 1.
/// let model = |entry| [&[0x01, 1, 4, 0, 0x02, 0][..], &six(entry), &[0x14], &six(0), &[0x30], &six(1), &[0xFF]].concat();
/// assert_eq!(pepperscarp::calm(&model(65_536)), Ok(true));
/// assert_eq!(pepperscarp::calm(&model(-65_537)), Ok(false));
/// ```
pub fn calm(file: &[u8]) -> Result<bool, Refusal> {
    // SAFETY: the routine reads the file's bytes, and keeps no pointer.
    let answer = unsafe { c::pepperscarp_calm(file.as_ptr(), file.len()) };
    match unpack(answer)? {
        (_, 0) => Ok(false),
        (_, 1) => Ok(true),
        (_, figure) => unreachable!("no model is calm by {figure}"),
    }
}

/// The limit of the slacks of a calm model at a step (Calm 3): no slack that [`sweep`] or [`judge`] leaves for this step is above
/// it, whatever the direction (Calm 4).
///
/// At step k the limit is (k × X + k × (k - 1) / 2 × Y + 1) / 1,048,576, rounded up, plus 1. X adds up the reaches of the initial
/// set in the n coordinates, and Y those of the input set and the magnitudes of the drift. At step 0 the limit is 2; it does not
/// fall from one step to the next, and it is 197,378 at most.
///
/// A file is refused by [`Refusal::File`]; then [`Refusal::NotCalm`] and [`Refusal::NoSuchStep`] are tested, in this order. (New
/// after version 0.8.0.)
///
/// ```
/// use pepperscarp::{slack_limit, sweep, Refusal};
///
/// let six = |first: i32| [first, 0, 0, 0, 0, 0].map(i32::to_le_bytes).concat();
/// // One coordinate, 4 steps, the entry 65,535, initial [0,500000], no input, and direction 1.
/// let sets = [&[0x10][..], &six(0), &[0x11], &six(500_000)].concat();
/// let file = [&[0x01, 1, 4, 0, 0x02, 0][..], &six(65_535), &sets, &[0x30], &six(1), &[0xFF]].concat();
///
/// let (mut bounds, mut slacks) = ([0; 5], [0; 5]);
/// sweep(&file, 0, &mut bounds, &mut slacks)?;
/// assert_eq!(slacks, [0, 1, 2, 2, 3]);
/// assert_eq!([0, 1, 2, 3, 4].map(|step| slack_limit(&file, step)), [2, 2, 2, 3, 3].map(Ok));
/// assert_eq!(slack_limit(&file, 5), Err(Refusal::NoSuchStep));
/// # Ok::<(), Refusal>(())
/// ```
pub fn slack_limit(file: &[u8], step: usize) -> Result<u64, Refusal> {
    // SAFETY: as for `calm`.
    let answer = unsafe { c::pepperscarp_slack_limit(file.as_ptr(), file.len(), step) };
    unpack(answer).map(|(_, limit)| limit)
}

/// How many steps of a calm model stay within a slack (Calm 7): the largest step k of 0 to K such that the limit ([`slack_limit`])
/// of every step from 0 to k is at most this slack.
///
/// So no slack that [`sweep`] or [`judge`] leaves for these steps is above it, whatever the direction. Slacks of later steps may be
/// within it too.
///
/// A file is refused by [`Refusal::File`]; then [`Refusal::NotCalm`] and [`Refusal::SlackTooSmall`] are tested, in this order.
/// (New after version 0.8.0.)
///
/// ```
/// use pepperscarp::{steps_within, Refusal};
///
/// let six = |first: i32| [first, 0, 0, 0, 0, 0].map(i32::to_le_bytes).concat();
/// // The model of `slack_limit`, whose limits are 2, 2, 2, 3 and 3.
/// let sets = [&[0x10][..], &six(0), &[0x11], &six(500_000)].concat();
/// let file = [&[0x01, 1, 4, 0, 0x02, 0][..], &six(65_535), &sets, &[0x30], &six(1), &[0xFF]].concat();
///
/// assert_eq!(steps_within(&file, 1), Err(Refusal::SlackTooSmall));
/// assert_eq!(steps_within(&file, 2), Ok(2));
/// assert_eq!(steps_within(&file, 3), Ok(4));
/// assert_eq!(steps_within(&file, u64::MAX), Ok(4));
/// ```
pub fn steps_within(file: &[u8], slack: u64) -> Result<usize, Refusal> {
    // SAFETY: as for `calm`.
    let answer = unsafe { c::pepperscarp_steps_within(file.as_ptr(), file.len(), slack) };
    unpack(answer).map(|(_, step)| step as usize)
}

/// The length that the lists for this file have to have, K + 1, as its head says, where 0 stands for [`DEFAULT_STEPS`]; `None`
/// where the file does not start with a head. The rest of the file isn't looked at: [`sweep`] and [`judge`] test it all.
pub fn list_length(file: &[u8]) -> Option<usize> {
    match file {
        [0x01, _, 0, 0, ..] => Some(DEFAULT_STEPS + 1),
        [0x01, _, low, high, ..] => Some(usize::from(u16::from_le_bytes([*low, *high])) + 1),
        _ => None,
    }
}
