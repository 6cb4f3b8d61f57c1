use crate::ffi::{self, Set};
use crate::runs::lend;
use crate::{BddVariable, Refusal};
use std::fmt::{Debug, Formatter, Result as Shown};
use std::sync::Arc;

/// A rule set: three runs of one length, 1 to 4,096, that are owned, never changed, and shared by all clones.
///
/// Two are equal where they are number for number. For sets in signing order over the same options that is exactly where
/// they mean the same. Terminals, literals and what operators give are in signing order, and negation keeps it. What comes
/// from bytes may be anything, even not ordered: [`is_ordered`](Bdd::is_ordered), [`is_tidy`](Bdd::is_tidy) and
/// [`is_signing`](Bdd::is_signing) tell, and every job refuses a set that is not ordered.
#[derive(Clone, PartialEq, Eq, Hash)]
pub struct Bdd {
    variable: Arc<[u16]>,
    low: Arc<[u32]>,
    high: Arc<[u32]>,
}

/// Terminals and literals. In the original these are private, and its callers reach them through `BddVariableSet`; here
/// both ways are open.
impl Bdd {
    /// Off at every setting of `num_vars` options. Refused with 5 above 256 options.
    pub fn mk_false(num_vars: u16) -> Result<Bdd, Refusal> {
        lend(|runs| runs.make(|output| ffi::mk_false(num_vars, output)))
    }

    /// On at every setting of `num_vars` options. Refused with 5 above 256 options.
    pub fn mk_true(num_vars: u16) -> Result<Bdd, Refusal> {
        lend(|runs| runs.make(|output| ffi::mk_true(num_vars, output)))
    }

    /// On where the option `var` is `value`. Refused with 5 if there is no such option, or above 256 options.
    pub fn mk_literal(num_vars: u16, var: BddVariable, value: bool) -> Result<Bdd, Refusal> {
        lend(|runs| runs.make(|output| ffi::mk_literal(num_vars, var.number(), value, output)))
    }
}

/// What a set is.
impl Bdd {
    /// The entries of a set, of which there is at least one.
    pub(crate) fn new(variable: &[u16], low: &[u32], high: &[u32]) -> Bdd {
        Bdd {
            variable: variable.into(),
            low: low.into(),
            high: high.into(),
        }
    }

    pub(crate) fn set(&self) -> Set<'_> {
        Set {
            variable: &self.variable,
            low: &self.low,
            high: &self.high,
        }
    }

    /// The number of entries, terminals included.
    pub fn size(&self) -> usize {
        self.variable.len()
    }

    /// The number of options, as entry 0 tells it.
    pub fn num_vars(&self) -> u16 {
        self.variable[0]
    }

    /// Whether this is the two entries of true. The original looks at the number of entries alone.
    pub fn is_true(&self) -> bool {
        self.size() == 2 && self.is_ordered()
    }

    /// Whether this is the one entry of false. The original looks at the number of entries alone.
    pub fn is_false(&self) -> bool {
        self.size() == 1 && self.is_ordered()
    }

    /// The value of a terminal, nothing for any other set.
    pub fn as_bool(&self) -> Option<bool> {
        if self.is_true() {
            return Some(true);
        }
        self.is_false().then_some(false)
    }

    /// The entries, each as variable, low link, high link.
    pub fn entries(&self) -> impl Iterator<Item = (u16, u32, u32)> + '_ {
        (0..self.size()).map(|i| (self.variable[i], self.low[i], self.high[i]))
    }
}

/// The three checks. The original has none of them.
impl Bdd {
    /// Whether the set is ordered, so that it means something.
    pub fn is_ordered(&self) -> bool {
        ffi::check_ordered(self.set())
    }

    /// Whether it is ordered, without an entry of equal links and without two equal entries.
    pub fn is_tidy(&self) -> bool {
        ffi::check_tidy(self.set())
    }

    /// Whether it is the one array of its function: the form that is hashed and signed.
    pub fn is_signing(&self) -> bool {
        ffi::check_signing(self.set())
    }
}

/// The entries as a list.
impl Debug for Bdd {
    fn fmt(&self, f: &mut Formatter) -> Shown {
        f.write_str("Bdd")?;
        f.debug_list().entries(self.entries()).finish()
    }
}
