//! Rule sets as arrays in signing order: the proved library Joistpetal under the names of the crate biodivine-lib-bdd 0.6.3,
//! so that code written for that crate changes over by its import.
//!
//! Every call takes any numbers. It gives an answer or a [`Refusal`], which says the paper's number and words; nothing
//! panics, runs on without end, or has to be checked beforehand. So each call that makes or reads something returns a
//! `Result` of what the original returns, and the change-over is the import and a `?`:
//!
//! ```
//! use joistpetal::{Bdd, BddVariable, BddVariableSet, Refusal, op_function};
//!
//! let options = BddVariableSet::new_anonymous(2);
//! let drive = options.mk_literal(BddVariable::from_index(0), true)?;
//! let tuner = options.mk_literal(BddVariable::from_index(1), true)?;
//! let rule = drive.imp(&tuner)?;
//! assert_eq!(rule, drive.not()?.or(&tuner)?);
//! assert!(Bdd::binary_op_with_limit(3, &drive, &tuner, op_function::and)?.is_none());
//! # Ok::<(), Refusal>(())
//! ```
//!
//! # Limits
//!
//! A call with a limit returns `Ok(None)` over the limit, where the original returns `None`: the `match` or `let .. else`
//! behind it stays as it is. That is exactly the paper's refusal 8, and 8 comes in no other way;
//! `.ok_or(Refusal::OVER_LIMIT)?` hands it on by its number. `Err` would have asked for each such place to be
//! written anew, and an `.ok()` there would have passed off every other refusal as "over the limit".
//!
//! # What is lent
//!
//! The library asks its callers for every run that it writes. This crate lends them, one set of runs to a thread, kept from
//! call to call:
//!
//! | run | places | bytes |
//! |---|---|---|
//! | output | 4,096 entries | 40,960 |
//! | index | 4,096 | 16,384 |
//! | stack | 2n+1, at most 513 | 2,052 |
//! | pairs | see below | 16 to a place |
//! | a comparison's room, from the pair run | 9 (L + M) numbers | at most 294,912 |
//! | a restriction's map, from the pair run | L numbers | at most 16,384 |
//! | three spare runs, to pick k options | 4,096 (k + 4) entries, given back | 40,960 (k + 4) |
//!
//! An operator begins with a pair run of 2 (L + M) places, where L and M are the lengths of its two sets. After refusal 7
//! its pairs are counted by dry runs, each in four times as many places as the one before until at most half of them are
//! used, and the operator is asked again with twice as many places as there are pairs; never with more than L times M.
//! There are no more pairs than that, so **no caller sees 7**. Nor does one see 6. The pair run decides 7 alone, so that the
//! answer is the one that any run with room enough gives. A caller's own dry run is counted in the same way. Picking is many
//! operators on arrays that nobody sees: after a 7 it is asked again with four times as many places.
//!
//! The greatest pair run, for two sets of 4,096 entries of which more than 2,097,152 pairs are reached, has 16,777,216 places:
//! 268,435,456 bytes. A thread keeps at most 65,536 places, 1,048,576 bytes; what is more is given back when the call ends.
//! A set itself takes 10 bytes to an entry, shared by its clones.
#![deny(unsafe_code, unsafe_op_in_unsafe_fn)]

mod bdd;
mod boolean_ops;
mod comparing;
#[allow(unsafe_code)]
mod ffi;
mod node;
mod nodes;
pub mod op_function;
mod refusal;
mod relation_ops;
mod runs;
mod serialisation;
mod variable;

pub use bdd::Bdd;
pub use comparing::Comparison;
pub use node::{BddNode, BddPointer};
pub use refusal::Refusal;
pub use variable::{BddVariable, BddVariableSet};

/// The job in the crate's README is compiled and run.
#[cfg(doctest)]
#[doc = include_str!("../README.md")]
struct Readme;
