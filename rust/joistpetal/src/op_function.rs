//! Operators as functions of values that may not be known yet, under the original's names, and the sixteen by number. Each
//! can be handed to [`Bdd::binary_op`](crate::Bdd::binary_op) and its kin. The answers are the proved library's.
use crate::{Refusal, ffi};
use joistpetal_sys as sys;

/// Off, on, not yet known, in the order of their numbers.
const VALUES: [Option<bool>; 3] = [Some(false), Some(true), None];

/// 0 is off, 1 on, 2 not yet known.
fn coded(value: Option<bool>) -> u8 {
    value.map_or(2, u8::from)
}

/// The other way round. The library answers 0, 1 or 2 to such numbers.
fn value(code: u8) -> Option<bool> {
    VALUES.get(usize::from(code)).copied().flatten()
}

/// The nine answers of an operator, at place 3a+b. Asks the function nine times.
pub(crate) fn answers(
    op: impl Fn(Option<bool>, Option<bool>) -> Option<bool>,
) -> [u8; sys::TABLE_ANSWERS] {
    std::array::from_fn(|place| coded(op(VALUES[place / 3], VALUES[place % 3])))
}

/// Partial operator function corresponding to `x & y`.
pub fn and(l: Option<bool>, r: Option<bool>) -> Option<bool> {
    value(sys::jp_op_and(coded(l), coded(r)))
}

/// Partial operator function corresponding to `x | y`.
pub fn or(l: Option<bool>, r: Option<bool>) -> Option<bool> {
    value(sys::jp_op_or(coded(l), coded(r)))
}

/// Partial operator function corresponding to `x => y`.
pub fn imp(l: Option<bool>, r: Option<bool>) -> Option<bool> {
    value(sys::jp_op_imp(coded(l), coded(r)))
}

/// Partial operator function corresponding to `x <=> y`.
pub fn iff(l: Option<bool>, r: Option<bool>) -> Option<bool> {
    value(sys::jp_op_iff(coded(l), coded(r)))
}

/// Partial operator function corresponding to `x ^ y`.
pub fn xor(l: Option<bool>, r: Option<bool>) -> Option<bool> {
    value(sys::jp_op_xor(coded(l), coded(r)))
}

/// Partial operator function corresponding to `x & !y`.
pub fn and_not(l: Option<bool>, r: Option<bool>) -> Option<bool> {
    value(sys::jp_op_and_not(coded(l), coded(r)))
}

/// Operator number `p`: bit 2a+b of `p` is the value at known a, b, and the answer is given as soon as all fillings agree.
/// So and is 8, or 14, xor 6, iff 9, imp 11, and_not 4. Refused with 1 from 16 on. The original has no such function.
///
/// ```
/// use joistpetal::{op_function, Bdd, BddVariable, Refusal};
///
/// let [x0, x1] = [0, 1].map(|i| Bdd::mk_literal(2, BddVariable::from_index(i), true));
/// let (x0, x1) = (x0?, x1?);
/// assert_eq!(Bdd::binary_op(&x0, &x1, op_function::numbered(8)?)?, x0.and(&x1)?);
/// # Ok::<(), Refusal>(())
/// ```
pub fn numbered(
    p: u8,
) -> Result<impl Fn(Option<bool>, Option<bool>) -> Option<bool> + Clone, Refusal> {
    let table = ffi::operator(p)?;
    Ok(move |l, r| value(table[3 * usize::from(coded(l)) + usize::from(coded(r))]))
}
