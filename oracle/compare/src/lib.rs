//! The two sides of the comparison and what lies between: `theirs` and `ours`, `paper`, `lent`, `chance`, and the families.
pub mod chains;
pub mod chance;
pub mod checks;
pub mod dry;
pub mod fault;
pub mod forms;
pub mod lent;
pub mod meaning;
pub mod operators;
pub mod ours;
pub mod paper;
pub mod relations;
pub mod tally;
pub mod theirs;
