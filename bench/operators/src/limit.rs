//! The calls of limit.c, over the runs that the library is lent.
use crate::jobs::{Ask, Lent, What::*};
use compare::meaning::Relation;
use compare::paper::{NO_FLIP, Set, operator};
use joistpetal_sys::{AND, OR};

#[repr(C)]
struct LentSet {
    variable: *const u16,
    low: *const u32,
    high: *const u32,
    len: usize,
}

#[repr(C)]
struct Output {
    variable: *mut u16,
    low: *mut u32,
    high: *mut u32,
    len: usize,
}

#[repr(C)]
struct Run {
    at: *mut u32,
    len: usize,
}

#[repr(C)]
struct Asked {
    table: *const u8,
    left: LentSet,
    right: LentSet,
    flip_left: u32,
    flip_right: u32,
    flip_out: u32,
}

#[rustfmt::skip]
unsafe extern "C" {
    fn limit_operator(
        ask: *const Asked, out: *const Output, pairs: *const Run, stack: *const Run, index: *const Run,
        size: *mut usize,
    ) -> bool;
    fn limit_dry(
        ask: *const Asked, pairs: *const Run, stack: *const Run, holds: *mut u32, count: *mut usize,
    ) -> bool;
}

fn lent_set(set: &Set) -> LentSet {
    LentSet { variable: set.variable.as_ptr(), low: set.low.as_ptr(), high: set.high.as_ptr(), len: set.len() }
}

fn lent_run(run: &mut [u32]) -> Run {
    Run { at: run.as_mut_ptr(), len: run.len() }
}

/// The limit's call, and the number by which what it made is checked; nothing where it has no such call.
pub fn limit(ask: &Ask, lent: &mut Lent) -> Option<usize> {
    let [a, b] = &ask.sets;
    let (p, flip) = match &ask.what {
        Operator(p, flip) => (*p, *flip),
        Dry(p) => (*p, None),
        Related(Relation::Exists(v)) => (OR, Some(*v)),
        Related(Relation::ForAll(v)) => (AND, Some(*v)),
        _ => return None,
    };
    let (table, flip) = (operator(p), flip.map_or(NO_FLIP, u32::from));
    let asked = Asked {
        table: table.as_ptr(),
        left: lent_set(a),
        right: lent_set(b),
        flip_left: NO_FLIP,
        flip_right: flip,
        flip_out: NO_FLIP,
    };
    let (v, l, h) = (lent.variable.as_mut_ptr(), lent.low.as_mut_ptr(), lent.high.as_mut_ptr());
    let out = Output { variable: v, low: l, high: h, len: lent.variable.len() };
    let (pairs, stack, index) = (lent_run(&mut lent.pairs), lent_run(&mut lent.stack), lent_run(&mut lent.index));
    let (mut size, mut holds) = (0, 0);
    // SAFETY: runs of our own, each with its length; the library does these very calls without a refusal, which is all
    // that the limit asks.
    let done = unsafe {
        match ask.what {
            Dry(_) => limit_dry(&asked, &pairs, &stack, &mut holds, &mut size),
            _ => limit_operator(&asked, &out, &pairs, &stack, &index, &mut size),
        }
    };
    assert!(done);
    Some(if let Dry(_) = ask.what { 2 * size + holds as usize } else { size })
}
