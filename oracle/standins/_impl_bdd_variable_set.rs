//! Stand-in: the public door to the makers in `_impl_util.rs`, which are private to the crate.
use crate::{Bdd, BddVariable, BddVariableSet};
use std::collections::HashMap;

impl BddVariableSet {
    /// Names are left out: only the makers below are used.
    pub fn new_anonymous(num_vars: u16) -> BddVariableSet {
        BddVariableSet {
            num_vars,
            var_names: Vec::new(),
            var_index_mapping: HashMap::new(),
        }
    }

    pub fn mk_false(&self) -> Bdd {
        Bdd::mk_false(self.num_vars)
    }

    pub fn mk_true(&self) -> Bdd {
        Bdd::mk_true(self.num_vars)
    }

    pub fn mk_literal(&self, variable: BddVariable, value: bool) -> Bdd {
        Bdd::mk_literal(self.num_vars, variable, value)
    }
}
