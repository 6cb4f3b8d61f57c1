//! The original crate, asked with the same numbers. Only ordered sets over one n, good tables and options below n come
//! here: outside these it panics or never ends.
use crate::meaning::{Relation, Step};
use crate::paper::{Flips, MOST_ENTRIES, NO_FLIP, Set};
use biodivine_lib_bdd::{Bdd, BddPartialValuation, BddVariable, BddVariableSet, op_function};
use oracle::arrays;

/// What the crate makes of an operator and what it counts.
pub struct Told {
    pub array: Set,
    pub holds: bool,
    pub count: usize,
}

impl Told {
    /// T of document 01.
    pub fn pairs(&self) -> usize {
        self.count.max(1)
    }

    pub fn size(&self) -> usize {
        self.array.len()
    }
}

pub fn bdd(set: &Set) -> Bdd {
    arrays::set_of(&set.variable, &set.low, &set.high)
}

pub fn set(bdd: Bdd) -> Set {
    let arrays::Runs { variable, low, high } = arrays::runs_of(bdd);
    Set { variable, low, high }
}

fn options(flips: Flips) -> [Option<BddVariable>; 3] {
    flips.map(|flip| (flip != NO_FLIP).then(|| BddVariable::from_index(flip as usize)))
}

/// Nothing where more than `most` pairs are counted.
pub fn tell(table: &[u8], left: &Bdd, right: &Bdd, flips: Flips, most: usize) -> Option<Told> {
    let table: [u8; 9] = table.try_into().unwrap();
    let [l, r, out] = options(flips);
    let op = arrays::closure(table);
    let (holds, count) = Bdd::check_fused_binary_flip_op(most, (left, l), (right, r), out, &op)?;
    let array = set(Bdd::fused_binary_flip_op((left, l), (right, r), out, &op));
    Some(Told { array, holds, count })
}

/// The crate's limited operator, a text of its own.
pub fn limited(limit: usize, table: &[u8], left: &Bdd, right: &Bdd, flips: Flips) -> Option<Set> {
    let [l, r, out] = options(flips);
    let op = arrays::closure(table.try_into().unwrap());
    Bdd::fused_binary_flip_op_with_limit(limit, (left, l), (right, r), out, op).map(set)
}

/// The crate's limited dry run.
pub fn limited_dry(limit: usize, table: &[u8], left: &Bdd, right: &Bdd, flips: Flips) -> Option<(bool, usize)> {
    let [l, r, out] = options(flips);
    let op = arrays::closure(table.try_into().unwrap());
    Bdd::check_fused_binary_flip_op(limit, (left, l), (right, r), out, op)
}

type Function = fn(Option<bool>, Option<bool>) -> Option<bool>;

fn variable(v: u16) -> BddVariable {
    BddVariable::from_index(v as usize)
}

/// What the crate makes of a call of module 7; nothing where a step's array is longer than any that is asked for, or its pairs
/// are more than `most`. That step is then the last, and what it lacks counts as more than any room.
pub fn relate(set: &Bdd, relation: &Relation, most: usize) -> (Option<Bdd>, Vec<Step>) {
    let mut walk = Walk { most, steps: Vec::new() };
    let made = match relation {
        Relation::Exists(v) => walk.exists(set, *v),
        Relation::ForAll(v) => walk.operator(op_function::and, set, set, Some(*v), || set.var_for_all(variable(*v))),
        Relation::Select(v, value) => walk.select(set, *v, *value),
        Relation::Restrict(values) => {
            let mut valuation = BddPartialValuation::empty();
            for (v, value) in values.iter().enumerate().filter(|(_, value)| **value < 2) {
                valuation.set_value(variable(v as u16), *value == 1);
            }
            walk.took(0, set.restrict_valuation(&valuation))
        }
        Relation::VarRestrict(v, value) => walk.took(0, set.var_restrict(variable(*v), *value)),
        Relation::VarPick(v) => walk.var_pick(set, *v).inspect(|made| assert!(*made == set.var_pick(variable(*v)))),
        Relation::Pick(list) if list.is_empty() => walk.took(0, set.pick(&[])),
        Relation::Pick(list) => {
            let mut sorted = list.clone();
            sorted.sort_unstable();
            let list: Vec<BddVariable> = list.iter().map(|v| variable(*v)).collect();
            walk.pick(set, &sorted).inspect(|made| assert!(*made == set.pick(&list)))
        }
    };
    (made, walk.steps)
}

/// The steps of a call in the order of the Rust, each the crate's own operator.
struct Walk {
    most: usize,
    steps: Vec<Step>,
}

impl Walk {
    fn took(&mut self, t: usize, made: Bdd) -> Option<Bdd> {
        let s = made.size();
        self.steps.push(Step { t, s });
        (s <= MOST_ENTRIES).then_some(made)
    }

    /// T is counted by the dry run, then the array is made.
    fn operator(
        &mut self,
        op: Function,
        left: &Bdd,
        right: &Bdd,
        flip: Option<u16>,
        make: impl FnOnce() -> Bdd,
    ) -> Option<Bdd> {
        match Bdd::check_fused_binary_flip_op(self.most, (left, None), (right, flip.map(variable)), None, op) {
            Some((_, count)) => self.took(count.max(1), make()),
            None => {
                self.steps.push(Step { t: usize::MAX, s: usize::MAX });
                None
            }
        }
    }

    fn exists(&mut self, set: &Bdd, v: u16) -> Option<Bdd> {
        self.operator(op_function::or, set, set, Some(v), || set.var_exists(variable(v)))
    }

    fn select(&mut self, set: &Bdd, v: u16, value: bool) -> Option<Bdd> {
        let literal = BddVariableSet::new_anonymous(set.num_vars()).mk_literal(variable(v), value);
        self.operator(op_function::and, set, &literal, None, || set.var_select(variable(v), value))
    }

    fn var_pick(&mut self, set: &Bdd, v: u16) -> Option<Bdd> {
        let off = self.select(set, v, false)?;
        let flipped = || Bdd::fused_binary_flip_op((set, None), (&off, Some(variable(v))), None, op_function::and_not);
        self.operator(op_function::and_not, set, &off, Some(v), flipped)
    }

    fn pick(&mut self, set: &Bdd, sorted: &[u16]) -> Option<Bdd> {
        let Some((&greatest, rest)) = sorted.split_last() else { return Some(set.clone()) };
        let without = self.exists(set, greatest)?;
        let rest = self.pick(&without, rest)?;
        let one = self.var_pick(set, greatest)?;
        self.operator(op_function::and, &rest, &one, None, || rest.and(&one))
    }
}
