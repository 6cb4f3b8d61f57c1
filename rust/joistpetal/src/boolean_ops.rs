use crate::ffi::{self, Job};
use crate::runs::lend;
use crate::{Bdd, BddVariable, Refusal, op_function};
use joistpetal_sys::{AND, AND_NOT, IFF, IMP, NO_FLIP, NO_LIMIT, OR, TABLE_ANSWERS, XOR};

/// A set, and the option that is switched for it.
type Flipped<'a> = (&'a Bdd, Option<BddVariable>);

/// Negation, operators and dry runs. Where a refusal is possible at all it is one of 1 to 5 and 9; 8 is `Ok(None)`.
impl Bdd {
    /// On where this set is off. Keeps the layout, and so the signing order.
    pub fn not(&self) -> Result<Bdd, Refusal> {
        lend(|runs| runs.make(|output| ffi::not(self.set(), output)))
    }

    /// The same as [`Bdd::not`]: a set's runs are shared, so nothing is saved here.
    pub fn into_not(self) -> Result<Bdd, Refusal> {
        self.not()
    }

    /// On where both are.
    pub fn and(&self, right: &Bdd) -> Result<Bdd, Refusal> {
        named(self, right, AND)
    }

    /// On where one of the two is, or both.
    pub fn or(&self, right: &Bdd) -> Result<Bdd, Refusal> {
        named(self, right, OR)
    }

    /// On where `right` is, or this is off.
    pub fn imp(&self, right: &Bdd) -> Result<Bdd, Refusal> {
        named(self, right, IMP)
    }

    /// On where both have the same value.
    pub fn iff(&self, right: &Bdd) -> Result<Bdd, Refusal> {
        named(self, right, IFF)
    }

    /// On where exactly one of the two is.
    pub fn xor(&self, right: &Bdd) -> Result<Bdd, Refusal> {
        named(self, right, XOR)
    }

    /// On where this is and `right` is off.
    pub fn and_not(&self, right: &Bdd) -> Result<Bdd, Refusal> {
        named(self, right, AND_NOT)
    }

    /// The signing order of any ordered set: the and of the set with itself. The original has no such call.
    pub fn signing_order(&self) -> Result<Bdd, Refusal> {
        self.and(self)
    }

    /// Any operator of two sets, see [`op_function`]. The function is asked nine times, before the work begins; one
    /// that gives nothing on two knowns, or takes back what it said, is refused with 1.
    pub fn binary_op<T>(left: &Bdd, right: &Bdd, op_function: T) -> Result<Bdd, Refusal>
    where
        T: Fn(Option<bool>, Option<bool>) -> Option<bool>,
    {
        Bdd::fused_binary_flip_op((left, None), (right, None), None, op_function)
    }

    /// The same, or `None` if the array would have more than `limit` entries (the paper's refusal 8).
    pub fn binary_op_with_limit<T>(
        limit: usize,
        left: &Bdd,
        right: &Bdd,
        op_function: T,
    ) -> Result<Option<Bdd>, Refusal>
    where
        T: Fn(Option<bool>, Option<bool>) -> Option<bool>,
    {
        Bdd::fused_binary_flip_op_with_limit(limit, (left, None), (right, None), None, op_function)
    }

    /// Any operator, where an output flip first switches its option in the setting and a set's own flip then switches
    /// its option for that set alone. A flip of n or more is refused with 5.
    pub fn fused_binary_flip_op<T>(
        left: (&Bdd, Option<BddVariable>),
        right: (&Bdd, Option<BddVariable>),
        flip_output: Option<BddVariable>,
        op_function: T,
    ) -> Result<Bdd, Refusal>
    where
        T: Fn(Option<bool>, Option<bool>) -> Option<bool>,
    {
        let table = op_function::answers(op_function);
        operate(job(NO_LIMIT, left, right, flip_output, &table))
    }

    /// The same, or `None` if the array would have more than `limit` entries (the paper's refusal 8).
    ///
    /// Over 4,096 entries without such a limit in the way is refused with 9.
    pub fn fused_binary_flip_op_with_limit<T>(
        limit: usize,
        left: (&Bdd, Option<BddVariable>),
        right: (&Bdd, Option<BddVariable>),
        flip_output: Option<BddVariable>,
        op_function: T,
    ) -> Result<Option<Bdd>, Refusal>
    where
        T: Fn(Option<bool>, Option<bool>) -> Option<bool>,
    {
        let table = op_function::answers(op_function);
        within_limit(operate(job(limit, left, right, flip_output, &table)))
    }

    /// The dry run: whether the operator can hold at any setting, and c, the number of different undecided pairs that it
    /// reaches; or `None` if c is more than `limit` (the paper's refusal 8). Nothing is built, so it is never refused
    /// for want of room.
    pub fn check_binary_op<T>(
        limit: usize,
        left: &Bdd,
        right: &Bdd,
        op_function: T,
    ) -> Result<Option<(bool, usize)>, Refusal>
    where
        T: Fn(Option<bool>, Option<bool>) -> Option<bool>,
    {
        Bdd::check_fused_binary_flip_op(limit, (left, None), (right, None), None, op_function)
    }

    /// The dry run with flips.
    pub fn check_fused_binary_flip_op<T>(
        limit: usize,
        left: (&Bdd, Option<BddVariable>),
        right: (&Bdd, Option<BddVariable>),
        flip_output: Option<BddVariable>,
        op_function: T,
    ) -> Result<Option<(bool, usize)>, Refusal>
    where
        T: Fn(Option<bool>, Option<bool>) -> Option<bool>,
    {
        let table = op_function::answers(op_function);
        let job = job(limit, left, right, flip_output, &table);
        within_limit(lend(|runs| runs.dry_run(&job)))
    }
}

fn named(left: &Bdd, right: &Bdd, p: u8) -> Result<Bdd, Refusal> {
    let table = ffi::operator(p)?;
    operate(job(NO_LIMIT, (left, None), (right, None), None, &table))
}

pub(crate) fn job<'a>(
    limit: usize,
    left: Flipped<'a>,
    right: Flipped<'a>,
    flip_output: Option<BddVariable>,
    table: &'a [u8; TABLE_ANSWERS],
) -> Job<'a> {
    Job {
        limit,
        table,
        left: left.0.set(),
        right: right.0.set(),
        flip_left: flip(left.1),
        flip_right: flip(right.1),
        flip_output: flip(flip_output),
    }
}

fn flip(option: Option<BddVariable>) -> u32 {
    option.map_or(NO_FLIP, |option| u32::from(option.number()))
}

fn operate(job: Job) -> Result<Bdd, Refusal> {
    lend(|runs| runs.operate(&job))
}

/// What the original says for 8.
fn within_limit<T>(answer: Result<T, Refusal>) -> Result<Option<T>, Refusal> {
    match answer {
        Err(Refusal::OVER_LIMIT) => Ok(None),
        answer => answer.map(Some),
    }
}
