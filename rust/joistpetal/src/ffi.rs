//! A safe function over each call of the library that the crate uses. The only module with `unsafe`.
//!
//! What `joistpetal_sys` asks of a caller is that each pointer is good for its count and that what is written is not lent
//! twice. Slices and `&mut` say both.
use crate::Refusal;
use joistpetal_sys::*;

/// Three runs that are read.
#[derive(Clone, Copy)]
pub(crate) struct Set<'a> {
    pub variable: &'a [u16],
    pub low: &'a [u32],
    pub high: &'a [u32],
}

/// Three runs that are written.
pub(crate) struct Output<'a> {
    pub variable: &'a mut [u16],
    pub low: &'a mut [u32],
    pub high: &'a mut [u32],
}

/// The working runs of an operator.
pub(crate) struct Work<'a> {
    pub pairs: &'a mut [u32],
    pub stack: &'a mut [u32],
    pub index: &'a mut [u32],
}

/// The working runs of picking: those of an operator, and three spare runs.
pub(crate) struct PickWork<'a> {
    pub pairs: &'a mut [u32],
    pub stack: &'a mut [u32],
    pub index: &'a mut [u32],
    pub spare_variable: &'a mut [u16],
    pub spare_low: &'a mut [u32],
    pub spare_high: &'a mut [u32],
}

/// The working runs of a restriction.
pub(crate) struct MapWork<'a> {
    pub stack: &'a mut [u32],
    pub index: &'a mut [u32],
    pub map: &'a mut [u32],
}

/// What an operator and its dry run are asked.
#[derive(Clone, Copy)]
pub(crate) struct Job<'a> {
    pub limit: usize,
    pub table: &'a [u8; TABLE_ANSWERS],
    pub left: Set<'a>,
    pub right: Set<'a>,
    pub flip_left: u32,
    pub flip_right: u32,
    pub flip_output: u32,
}

/// 0 is done, any other number the paper's.
fn told<T>(answer: u32, value: T) -> Result<T, Refusal> {
    match answer {
        0 => Ok(value),
        number => Err(Refusal::numbered(number)),
    }
}

#[rustfmt::skip]
pub(crate) fn mk_false(n: u16, output: Output) -> Result<usize, Refusal> {
    let Output { variable: ov, low: ol, high: oh } = output;
    let mut size = 0;
    // SAFETY: each pointer and count is one live slice, exclusive and apart from the others.
    let answer = unsafe {
        jp_mk_false(
            n,
            ov.as_mut_ptr(), ov.len(), ol.as_mut_ptr(), ol.len(), oh.as_mut_ptr(), oh.len(),
            &mut size,
        )
    };
    told(answer, size)
}

#[rustfmt::skip]
pub(crate) fn mk_true(n: u16, output: Output) -> Result<usize, Refusal> {
    let Output { variable: ov, low: ol, high: oh } = output;
    let mut size = 0;
    // SAFETY: each pointer and count is one live slice, exclusive and apart from the others.
    let answer = unsafe {
        jp_mk_true(
            n,
            ov.as_mut_ptr(), ov.len(), ol.as_mut_ptr(), ol.len(), oh.as_mut_ptr(), oh.len(),
            &mut size,
        )
    };
    told(answer, size)
}

#[rustfmt::skip]
pub(crate) fn mk_literal(n: u16, v: u16, value: bool, output: Output) -> Result<usize, Refusal> {
    let Output { variable: ov, low: ol, high: oh } = output;
    let mut size = 0;
    // SAFETY: each pointer and count is one live slice, exclusive and apart from the others.
    let answer = unsafe {
        jp_mk_literal(
            n, v, value,
            ov.as_mut_ptr(), ov.len(), ol.as_mut_ptr(), ol.len(), oh.as_mut_ptr(), oh.len(),
            &mut size,
        )
    };
    told(answer, size)
}

#[rustfmt::skip]
pub(crate) fn not(set: Set, output: Output) -> Result<usize, Refusal> {
    let Set { variable: v, low: l, high: h } = set;
    let Output { variable: ov, low: ol, high: oh } = output;
    let mut size = 0;
    // SAFETY: each pointer and count is one live slice; those written are exclusive, so apart from the set and each other.
    let answer = unsafe {
        jp_not(
            v.as_ptr(), v.len(), l.as_ptr(), l.len(), h.as_ptr(), h.len(),
            ov.as_mut_ptr(), ov.len(), ol.as_mut_ptr(), ol.len(), oh.as_mut_ptr(), oh.len(),
            &mut size,
        )
    };
    told(answer, size)
}

/// How many records were read, and how many bytes of a tail there were.
#[rustfmt::skip]
pub(crate) fn read_as_bytes(file: &[u8], output: Output) -> Result<(usize, usize), Refusal> {
    let Output { variable: ov, low: ol, high: oh } = output;
    let (mut records, mut tail) = (0, 0);
    // SAFETY: each pointer and count is one live slice; those written are exclusive, so apart from the file and each other.
    let answer = unsafe {
        jp_read_as_bytes(
            file.as_ptr(), file.len(),
            ov.as_mut_ptr(), ov.len(), ol.as_mut_ptr(), ol.len(), oh.as_mut_ptr(), oh.len(),
            &mut records, &mut tail,
        )
    };
    told(answer, (records, tail))
}

/// How many bytes were written.
#[rustfmt::skip]
pub(crate) fn write_as_bytes(set: Set, bytes: &mut [u8]) -> Result<usize, Refusal> {
    let Set { variable: v, low: l, high: h } = set;
    let mut written = 0;
    // SAFETY: each pointer and count is one live slice; the bytes are exclusive, so apart from the set.
    let answer = unsafe {
        jp_write_as_bytes(
            v.as_ptr(), v.len(), l.as_ptr(), l.len(), h.as_ptr(), h.len(),
            bytes.as_mut_ptr(), bytes.len(),
            &mut written,
        )
    };
    told(answer, written)
}

pub(crate) fn check_ordered(set: Set) -> bool {
    let (v, l, h) = (set.variable, set.low, set.high);
    // SAFETY: each pointer and count is one live slice, and nothing is written.
    0 < unsafe {
        jp_check_ordered(
            v.as_ptr(),
            v.len(),
            l.as_ptr(),
            l.len(),
            h.as_ptr(),
            h.len(),
        )
    }
}

pub(crate) fn check_tidy(set: Set) -> bool {
    let (v, l, h) = (set.variable, set.low, set.high);
    // SAFETY: each pointer and count is one live slice, and nothing is written.
    0 < unsafe {
        jp_check_tidy(
            v.as_ptr(),
            v.len(),
            l.as_ptr(),
            l.len(),
            h.as_ptr(),
            h.len(),
        )
    }
}

pub(crate) fn check_signing(set: Set) -> bool {
    let (v, l, h) = (set.variable, set.low, set.high);
    // SAFETY: each pointer and count is one live slice, and nothing is written.
    0 < unsafe {
        jp_check_signing(
            v.as_ptr(),
            v.len(),
            l.as_ptr(),
            l.len(),
            h.as_ptr(),
            h.len(),
        )
    }
}

/// The value at a setting of numbers 0 and 1.
#[rustfmt::skip]
pub(crate) fn value_at(set: Set, setting: &[u8]) -> Result<bool, Refusal> {
    let Set { variable: v, low: l, high: h } = set;
    let mut value = 0;
    // SAFETY: each pointer and count is one live slice; the value is exclusive, so apart from them.
    let answer = unsafe {
        jp_value_at(
            v.as_ptr(), v.len(), l.as_ptr(), l.len(), h.as_ptr(), h.len(),
            setting.as_ptr(), setting.len(),
            &mut value,
        )
    };
    told(answer, value == 1)
}

/// How two sets stand to each other, and where they differ the left set's value there.
#[rustfmt::skip]
pub(crate) fn same(
    left: Set, right: Set, setting: &mut [u8; SETTING], room: &mut [u32],
) -> Result<(u32, bool), Refusal> {
    let Set { variable: lv, low: ll, high: lh } = left;
    let Set { variable: rv, low: rl, high: rh } = right;
    let (mut standing, mut value) = (0, 0);
    // SAFETY: each pointer and count is one live slice; the setting is SETTING live numbers, and what is written is exclusive,
    // so apart from the sets and each other. The two sets may be one: they are only read.
    let answer = unsafe {
        jp_same(
            lv.as_ptr(), lv.len(), ll.as_ptr(), ll.len(), lh.as_ptr(), lh.len(),
            rv.as_ptr(), rv.len(), rl.as_ptr(), rl.len(), rh.as_ptr(), rh.len(),
            setting,
            room.as_mut_ptr(), room.len(),
            &mut standing, &mut value,
        )
    };
    told(answer, (standing, value == 1))
}

/// The nine answers of operator p.
pub(crate) fn operator(p: u8) -> Result<[u8; TABLE_ANSWERS], Refusal> {
    let mut table = [0; TABLE_ANSWERS];
    // SAFETY: the pointer is to nine live numbers, exclusive.
    let answer = unsafe { jp_operator(p, &mut table) };
    told(answer, table)
}

/// The size of the array that was written.
#[rustfmt::skip]
pub(crate) fn operate(job: &Job, output: Output, work: Work) -> Result<usize, Refusal> {
    let Set { variable: lv, low: ll, high: lh } = job.left;
    let Set { variable: rv, low: rl, high: rh } = job.right;
    let Output { variable: ov, low: ol, high: oh } = output;
    let Work { pairs, stack, index } = work;
    let mut size = 0;
    // SAFETY: each pointer and count is one live slice or the nine answers; those written are exclusive, so apart from the
    // table, the sets and each other. The two sets may be one: they are only read.
    let answer = unsafe {
        jp_fused_binary_flip_op_with_limit(
            job.limit,
            job.table.as_ptr(), job.table.len(),
            lv.as_ptr(), lv.len(), ll.as_ptr(), ll.len(), lh.as_ptr(), lh.len(),
            rv.as_ptr(), rv.len(), rl.as_ptr(), rl.len(), rh.as_ptr(), rh.len(),
            job.flip_left, job.flip_right, job.flip_output,
            ov.as_mut_ptr(), ov.len(), ol.as_mut_ptr(), ol.len(), oh.as_mut_ptr(), oh.len(),
            pairs.as_mut_ptr(), pairs.len(), stack.as_mut_ptr(), stack.len(), index.as_mut_ptr(), index.len(),
            &mut size,
        )
    };
    told(answer, size)
}

/// "Can it hold", and c.
#[rustfmt::skip]
pub(crate) fn dry_run(job: &Job, pairs: &mut [u32], stack: &mut [u32]) -> Result<(bool, usize), Refusal> {
    let Set { variable: lv, low: ll, high: lh } = job.left;
    let Set { variable: rv, low: rl, high: rh } = job.right;
    let (mut holds, mut count) = (0, 0);
    // SAFETY: each pointer and count is one live slice or the nine answers; those written are exclusive, so apart from the
    // table, the sets and each other. The two sets may be one: they are only read.
    let answer = unsafe {
        jp_check_fused_binary_flip_op(
            job.limit,
            job.table.as_ptr(), job.table.len(),
            lv.as_ptr(), lv.len(), ll.as_ptr(), ll.len(), lh.as_ptr(), lh.len(),
            rv.as_ptr(), rv.len(), rl.as_ptr(), rl.len(), rh.as_ptr(), rh.len(),
            job.flip_left, job.flip_right, job.flip_output,
            pairs.as_mut_ptr(), pairs.len(), stack.as_mut_ptr(), stack.len(),
            &mut holds, &mut count,
        )
    };
    told(answer, (holds == 1, count))
}

/// The calls on one set that are lent an output and three working runs; each answers with the size of the array that it wrote.
macro_rules! on_one_set {
    ($($name:ident($($given:ident: $of:ty => [$($handed:expr),*]),*; $work:ident { $($run:ident),* }) = $call:ident;)*) => { $(
        #[rustfmt::skip]
        pub(crate) fn $name(set: Set, $($given: $of,)* output: Output, work: $work) -> Result<usize, Refusal> {
            let Set { variable: lv, low: ll, high: lh } = set;
            let Output { variable: ov, low: ol, high: oh } = output;
            let $work { $($run),* } = work;
            let mut size = 0;
            // SAFETY: each pointer and count is one live slice; those written are exclusive, so apart from what is read and
            // from each other.
            let answer = unsafe {
                $call(
                    lv.as_ptr(), lv.len(), ll.as_ptr(), ll.len(), lh.as_ptr(), lh.len(),
                    $($($handed,)*)*
                    ov.as_mut_ptr(), ov.len(), ol.as_mut_ptr(), ol.len(), oh.as_mut_ptr(), oh.len(),
                    $($run.as_mut_ptr(), $run.len(),)*
                    &mut size,
                )
            };
            told(answer, size)
        }
    )* };
}

on_one_set! {
    var_exists(v: u16 => [v]; Work { pairs, stack, index }) = jp_var_exists;
    var_for_all(v: u16 => [v]; Work { pairs, stack, index }) = jp_var_for_all;
    var_select(v: u16 => [v], value: bool => [value]; Work { pairs, stack, index }) = jp_var_select;
    var_pick(v: u16 => [v]; PickWork { pairs, stack, index, spare_variable, spare_low, spare_high }) = jp_var_pick;
    pick(picks: &[u16] => [picks.as_ptr(), picks.len()];
        PickWork { pairs, stack, index, spare_variable, spare_low, spare_high }) = jp_pick;
    restrict(values: &[u8] => [values.as_ptr(), values.len()]; MapWork { stack, index, map }) = jp_restrict;
    var_restrict(v: u16 => [v], value: bool => [value]; MapWork { stack, index, map }) = jp_var_restrict;
}
