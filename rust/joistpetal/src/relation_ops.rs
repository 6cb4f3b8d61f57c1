use crate::boolean_ops::job;
use crate::ffi::{self, Output, Set, Work};
use crate::runs::lend;
use crate::{Bdd, BddVariable, Refusal};
use joistpetal_sys::{AND, FREE, NO_LIMIT, OFF, ON, OR};

/// Quantifiers, selection, picking and restriction. Refused are 2, 5 for an option of n or more, 9, and 10 for a list of picked
/// options that repeats one.
impl Bdd {
    /// On where this set is on with the option off or with it on.
    pub fn var_exists(&self, variable: BddVariable) -> Result<Bdd, Refusal> {
        quantified(self, variable, OR, ffi::var_exists)
    }

    /// On where this set is on with both.
    pub fn var_for_all(&self, variable: BddVariable) -> Result<Bdd, Refusal> {
        quantified(self, variable, AND, ffi::var_for_all)
    }

    /// [`var_exists`](Bdd::var_exists) of each option, one after another; of none, the [`signing_order`](Bdd::signing_order). The
    /// original does it in one step, so that no array in between can be too long.
    pub fn exists(&self, variables: &[BddVariable]) -> Result<Bdd, Refusal> {
        one_by_one(self, variables, |set, option| set.var_exists(*option))
    }

    /// [`var_for_all`](Bdd::var_for_all) of each option, as [`exists`](Bdd::exists).
    pub fn for_all(&self, variables: &[BddVariable]) -> Result<Bdd, Refusal> {
        one_by_one(self, variables, |set, option| set.var_for_all(*option))
    }

    /// This set where the option is `value`, otherwise off.
    pub fn var_select(&self, variable: BddVariable, value: bool) -> Result<Bdd, Refusal> {
        lend(|runs| runs.select(self.set(), variable.number(), value))
    }

    /// This set where each option has its value, otherwise off; of none, the [`signing_order`](Bdd::signing_order). Of an option
    /// that is named twice the last value counts.
    pub fn select(&self, variables: &[(BddVariable, bool)]) -> Result<Bdd, Refusal> {
        let last: Vec<_> = (0..variables.len())
            .filter(|&i| variables[i + 1..].iter().all(|(v, _)| *v != variables[i].0))
            .map(|i| variables[i])
            .collect();
        one_by_one(self, &last, |set, (option, value)| {
            set.var_select(*option, *value)
        })
    }

    /// Of the two ways of the option the off one where it is allowed, else the on one.
    pub fn var_pick(&self, variable: BddVariable) -> Result<Bdd, Refusal> {
        let v = variable.number();
        lend(|runs| {
            runs.pick(self.set(), 1, |output, work| {
                ffi::var_pick(self.set(), v, output, work)
            })
        })
    }

    /// For each setting of the other options the one allowed setting of these that is smallest, read from the smallest option, off
    /// before on. With no option it is this set as it stands. The original makes false of a list that repeats an option; here it
    /// is refused with 10.
    pub fn pick(&self, variables: &[BddVariable]) -> Result<Bdd, Refusal> {
        let picks: Vec<u16> = variables.iter().map(|v| v.number()).collect();
        lend(|runs| {
            runs.pick(self.set(), picks.len(), |output, work| {
                ffi::pick(self.set(), &picks, output, work)
            })
        })
    }

    /// This set with the option put to `value`. The array has its LOW side first, as the original's: it is in signing order only
    /// where [`is_signing`](Bdd::is_signing) says so, and [`signing_order`](Bdd::signing_order) makes the one that is hashed.
    pub fn var_restrict(&self, variable: BddVariable, value: bool) -> Result<Bdd, Refusal> {
        let v = variable.number();
        lend(|runs| {
            runs.restrict(self.set(), |output, work| {
                ffi::var_restrict(self.set(), v, value, output, work)
            })
        })
    }

    /// The same with each option put to its value, in one step. Of an option that is named twice the last value counts.
    pub fn restrict(&self, variables: &[(BddVariable, bool)]) -> Result<Bdd, Refusal> {
        let mut values = vec![FREE; usize::from(self.num_vars())];
        for &(variable, value) in variables {
            match values.get_mut(variable.to_index()) {
                Some(put) => *put = if value { ON } else { OFF },
                // 2 or 5, whichever comes first
                None => return self.var_restrict(variable, value),
            }
        }
        lend(|runs| {
            runs.restrict(self.set(), |output, work| {
                ffi::restrict(self.set(), &values, output, work)
            })
        })
    }
}

/// The operator of the set with itself, the right one flipped at the option: its pairs are those of the call.
fn quantified(
    set: &Bdd,
    variable: BddVariable,
    p: u8,
    call: fn(Set, u16, Output, Work) -> Result<usize, Refusal>,
) -> Result<Bdd, Refusal> {
    let table = ffi::operator(p)?;
    let job = job(NO_LIMIT, (set, None), (set, Some(variable)), None, &table);
    lend(|runs| {
        runs.operate_by(&job, |output, work| {
            call(set.set(), variable.number(), output, work)
        })
    })
}

fn one_by_one<T>(
    set: &Bdd,
    list: &[T],
    step: impl Fn(&Bdd, &T) -> Result<Bdd, Refusal>,
) -> Result<Bdd, Refusal> {
    let Some((first, rest)) = list.split_first() else {
        return set.signing_order();
    };
    rest.iter()
        .try_fold(step(set, first)?, |made, next| step(&made, next))
}
