//! The calls themselves: the crate's and ours.
use crate::jobs::{Ask, Lent, What::*, variable};
use biodivine_lib_bdd::{Bdd, op_function};
use compare::meaning::Relation;
use compare::paper::{NO_FLIP, Set, operator};
use joistpetal_sys::{
    AND, NO_LIMIT, OR, TABLE_ANSWERS, jp_check_binary_op, jp_check_ordered, jp_check_signing, jp_check_tidy, jp_not,
    jp_numbered_flip_op, jp_pick, jp_read_as_bytes, jp_restrict, jp_var_exists, jp_var_for_all, jp_write_as_bytes,
};
use std::hint::black_box;

/// The crate's own call, and whether it has one; allocating and freeing are part of it.
pub fn theirs(ask: &Ask) -> bool {
    let [l, r] = &ask.bdds;
    match &ask.what {
        Operator(AND, None) => made(l.and(r)),
        Operator(_, None) => made(l.xor(r)),
        // The crate's quantifiers are these operators.
        Operator(OR, Some(v)) | Related(Relation::Exists(v)) => made(l.var_exists(variable(*v))),
        Operator(_, Some(v)) | Related(Relation::ForAll(v)) => made(l.var_for_all(variable(*v))),
        Dry(AND) => made(Bdd::check_binary_op(usize::MAX, l, r, op_function::and)),
        Dry(_) => made(Bdd::check_binary_op(usize::MAX, l, r, op_function::xor)),
        Related(Relation::Restrict(_)) => made(l.restrict_valuation(&ask.values)),
        Related(_) => made(l.pick(&ask.options)),
        Not => made(l.not()),
        Write => made(l.to_bytes()),
        Read => made(Bdd::from_bytes(&mut ask.file.as_slice())),
        Check(0) => made(l.validate()),
        Check(_) => false,
    }
}

fn made<T>(made: T) -> bool {
    drop(black_box(made));
    true
}

/// A call: what comes before the sets, the sets, what comes behind them, the runs, and numbers to be told.
macro_rules! call {
    ($name:ident($($head:expr),*), [$($set:expr),*], [$($asked:expr),*], [$($run:expr),*], [$($told:expr),*]) => {
        // SAFETY: runs of our own, each with its length, and none of them lent twice.
        unsafe { $name(
            $($head,)*
            $($set.variable.as_ptr(), $set.len(), $set.low.as_ptr(), $set.len(), $set.high.as_ptr(), $set.len(),)*
            $($asked,)*
            $($run.as_mut_ptr(), $run.len(),)*
            $($told),*
        ) }
    };
}

/// Our call, and the number by which what it made is checked.
pub fn ours(ask: &Ask, lent: &mut Lent) -> usize {
    match &ask.what {
        Check(which) => checked(*which, &ask.sets[0]) as usize,
        Not | Write | Read => plain(ask, lent),
        Operator(..) | Dry(_) | Related(_) => worked(ask, lent),
    }
}

/// The calls that are lent working runs.
#[rustfmt::skip]
fn worked(ask: &Ask, lent: &mut Lent) -> usize {
    let [a, b] = &ask.sets;
    let Lent { variable: v, low: l, high: h, pairs, stack, index, map, spare_variable, spare_low, spare_high, .. } = lent;
    let mut size = 0;
    let answer = match &ask.what {
        Operator(p, flip) => {
            let flip = flip.map_or(NO_FLIP, u32::from);
            call!(jp_numbered_flip_op(*p), [a, b], [NO_FLIP, flip, NO_FLIP], [v, l, h, pairs, stack, index], [&mut size])
        }
        Dry(p) => {
            let (table, mut holds) = (operator(*p), 0);
            let answer = call!(jp_check_binary_op(NO_LIMIT, table.as_ptr(), TABLE_ANSWERS), [a, b], [], [pairs, stack],
                [&mut holds, &mut size]);
            size = 2 * size + holds as usize;
            answer
        }
        Related(Relation::Exists(at)) => call!(jp_var_exists(), [a], [*at], [v, l, h, pairs, stack, index], [&mut size]),
        Related(Relation::ForAll(at)) => call!(jp_var_for_all(), [a], [*at], [v, l, h, pairs, stack, index], [&mut size]),
        Related(Relation::Restrict(values)) =>
            call!(jp_restrict(), [a], [values.as_ptr(), values.len()], [v, l, h, stack, index, map], [&mut size]),
        Related(Relation::Pick(list)) =>
            call!(jp_pick(), [a], [list.as_ptr(), list.len()],
                [v, l, h, pairs, stack, index, spare_variable, spare_low, spare_high], [&mut size]),
        _ => unreachable!(),
    };
    assert!(answer == 0);
    size
}

/// The calls that are lent an output alone.
fn plain(ask: &Ask, lent: &mut Lent) -> usize {
    let (set, file) = (&ask.sets[0], &ask.file);
    let Lent { variable: v, low: l, high: h, bytes, .. } = lent;
    let (mut size, mut tail) = (0, 0);
    let answer = match &ask.what {
        Not => call!(jp_not(), [set], [], [v, l, h], [&mut size]),
        Write => call!(jp_write_as_bytes(), [set], [], [bytes], [&mut size]),
        _ => call!(jp_read_as_bytes(file.as_ptr(), file.len()), [], [], [v, l, h], [&mut size, &mut tail]),
    };
    assert!(answer == 0 && tail == 0);
    size
}

fn checked(which: usize, set: &Set) -> bool {
    let answer = match which {
        0 => call!(jp_check_ordered(), [set], [], [], []),
        1 => call!(jp_check_tidy(), [set], [], [], []),
        _ => call!(jp_check_signing(), [set], [], [], []),
    };
    answer != 0
}
