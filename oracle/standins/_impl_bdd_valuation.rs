//! Stand-in: full valuations. The given files need it to compile; no job calls it.
use crate::{BddValuation, BddVariable};

impl BddValuation {
    pub fn new(values: Vec<bool>) -> BddValuation {
        BddValuation(values)
    }

    pub fn all_false(num_vars: u16) -> BddValuation {
        BddValuation(vec![false; usize::from(num_vars)])
    }

    pub fn all_true(num_vars: u16) -> BddValuation {
        BddValuation(vec![true; usize::from(num_vars)])
    }

    pub fn set(&mut self, variable: BddVariable) {
        self.set_value(variable, true)
    }

    pub fn clear(&mut self, variable: BddVariable) {
        self.set_value(variable, false)
    }

    pub fn set_value(&mut self, variable: BddVariable, value: bool) {
        self.0[variable.to_index()] = value;
    }
}
