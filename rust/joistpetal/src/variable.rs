use crate::{Bdd, Refusal};
use std::fmt::{Display, Formatter, Result as Shown};

/// Identifies one of the options that a set can ask about.
#[derive(Clone, Copy, Debug, Eq, Hash, Ord, PartialEq, PartialOrd)]
pub struct BddVariable(usize);

impl BddVariable {
    /// The option's number.
    pub fn to_index(self) -> usize {
        self.0
    }

    /// The option of that number. The original panics above 65,535; here every number is taken, and a call that is
    /// handed one of n or more refuses with 5.
    pub fn from_index(index: usize) -> BddVariable {
        BddVariable(index)
    }

    /// The number as it is handed to the library. One that does not fit becomes 65,535, which no set has as an option
    /// either, since n is at most 256: the refusal is the same.
    pub(crate) fn number(self) -> u16 {
        u16::try_from(self.0).unwrap_or(u16::MAX)
    }
}

impl Display for BddVariable {
    fn fmt(&self, f: &mut Formatter) -> Shown {
        Display::fmt(&self.0, f)
    }
}

/// How many options there are: where the original's callers get terminals and literals from. Options have no names here.
#[derive(Clone, Debug)]
pub struct BddVariableSet(u16);

impl BddVariableSet {
    /// `num_vars` options without names. Above 256 each set that is asked for is refused with 5.
    pub fn new_anonymous(num_vars: u16) -> BddVariableSet {
        BddVariableSet(num_vars)
    }

    /// The number of options.
    pub fn num_vars(&self) -> u16 {
        self.0
    }

    /// See [`Bdd::mk_false`].
    pub fn mk_false(&self) -> Result<Bdd, Refusal> {
        Bdd::mk_false(self.0)
    }

    /// See [`Bdd::mk_true`].
    pub fn mk_true(&self) -> Result<Bdd, Refusal> {
        Bdd::mk_true(self.0)
    }

    /// The literal of `var` that is on where the option is.
    pub fn mk_var(&self, var: BddVariable) -> Result<Bdd, Refusal> {
        self.mk_literal(var, true)
    }

    /// The literal of `var` that is on where the option is off.
    pub fn mk_not_var(&self, var: BddVariable) -> Result<Bdd, Refusal> {
        self.mk_literal(var, false)
    }

    /// See [`Bdd::mk_literal`].
    pub fn mk_literal(&self, var: BddVariable, value: bool) -> Result<Bdd, Refusal> {
        Bdd::mk_literal(self.0, var, value)
    }
}
