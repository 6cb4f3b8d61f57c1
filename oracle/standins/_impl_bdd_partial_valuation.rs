//! Stand-in: which option has which value. Restriction's answers rest on it.
use crate::{BddPartialValuation, BddVariable};
use std::ops::Index;

impl BddPartialValuation {
    pub fn empty() -> BddPartialValuation {
        BddPartialValuation(Vec::new())
    }

    /// A later value of the same variable replaces an earlier one.
    pub fn from_values(values: &[(BddVariable, bool)]) -> BddPartialValuation {
        let mut result = BddPartialValuation::empty();
        for (variable, value) in values {
            result.set_value(*variable, *value);
        }
        result
    }

    pub fn set_value(&mut self, variable: BddVariable, value: bool) {
        let place = variable.to_index();
        if self.0.len() <= place {
            self.0.resize(place + 1, None);
        }
        self.0[place] = Some(value);
    }

    pub fn to_values(&self) -> Vec<(BddVariable, bool)> {
        let known = |(place, value): (usize, &Option<bool>)| {
            value.map(|value| (BddVariable::from_index(place), value))
        };
        self.0.iter().enumerate().filter_map(known).collect()
    }
}

/// A variable that was never set is free.
impl Index<BddVariable> for BddPartialValuation {
    type Output = Option<bool>;

    fn index(&self, variable: BddVariable) -> &Option<bool> {
        self.0.get(variable.to_index()).unwrap_or(&None)
    }
}
