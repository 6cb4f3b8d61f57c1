//! The functions of `libjoistpetal.a` as `include/joistpetal.h` declares them, its inline forms, its numbers and its lengths: the
//! one place where Rust declares them. The header says what each function takes, answers and leaves in each run.
//!
//! # Safety
//!
//! The functions are proved to take any numbers in the runs, to read and write no others, to keep no pointer and to end. What is
//! left to ask of a caller is the same of each: every pointer is aligned and good for its count, or for the one number or array
//! that it points to, and what is written overlaps nothing else that is given. Runs that are only read may be the same.
#![no_std]
#![allow(clippy::too_many_arguments)]
#![allow(clippy::missing_safety_doc)]

/// The greatest `usize` stands for no limit on both sides.
const _: () = assert!(usize::BITS == 64);

/// The greatest number of options.
pub const MOST_OPTIONS: usize = 256;
/// The greatest number of entries.
pub const MOST_ENTRIES: usize = 4_096;
/// The bytes of a record.
pub const RECORD_BYTES: usize = 10;
/// The answers of a table.
pub const TABLE_ANSWERS: usize = 9;
/// The numbers of the setting that a comparison writes.
pub const SETTING: usize = MOST_OPTIONS;
/// No flip.
pub const NO_FLIP: u32 = 65_536;
/// No limit.
pub const NO_LIMIT: usize = usize::MAX;

/// The numbers of the operators that have names.
pub const AND_NOT: u8 = 4;
#[allow(missing_docs)]
pub const XOR: u8 = 6;
#[allow(missing_docs)]
pub const AND: u8 = 8;
#[allow(missing_docs)]
pub const IFF: u8 = 9;
#[allow(missing_docs)]
pub const IMP: u8 = 11;
#[allow(missing_docs)]
pub const OR: u8 = 14;

/// What a restriction puts an option to: off, on, or left as it is.
pub const OFF: u8 = 0;
#[allow(missing_docs)]
pub const ON: u8 = 1;
#[allow(missing_docs)]
pub const FREE: u8 = 2;

/// How two sets stand to each other: the same numbers, the same meaning, or they differ.
pub const SAME_NUMBERS: u32 = 1;
#[allow(missing_docs)]
pub const SAME_MEANING: u32 = 2;
#[allow(missing_docs)]
pub const DIFFER: u32 = 3;

/// The stack over n options.
pub const fn stack_len(n: usize) -> usize {
    2 * n + 1
}

/// W, and so the index, where the shortest output run has so many entries.
pub const fn index_len(entries: usize) -> usize {
    if entries < MOST_ENTRIES {
        entries
    } else {
        MOST_ENTRIES
    }
}

/// The pair run for so many pairs.
pub const fn pairs_len(pairs: usize) -> usize {
    4 * pairs
}

/// As many pairs as sets of l and m entries have: no operator reaches more.
pub const fn enough_pairs(l: usize, m: usize) -> usize {
    l * m
}

/// The map of a restriction of a set of l entries.
pub const fn map_len(l: usize) -> usize {
    l
}

/// Each of the spare runs, to pick k options, where the shortest output run has so many entries.
pub const fn spare_len(k: usize, entries: usize) -> usize {
    (k + 4) * index_len(entries)
}

/// The file of a set of l entries.
pub const fn file_len(l: usize) -> usize {
    RECORD_BYTES * l
}

/// The least room of a comparison of sets of l and m entries.
pub const fn compare_len(l: usize, m: usize) -> usize {
    5 * (l + m)
}

/// The room that keeps a comparison's searches short.
pub const fn compare_advised_len(l: usize, m: usize) -> usize {
    9 * (l + m)
}

// These are the signatures of crates/exports/src and crates/exports_relations/src; a Rattle `&[T]` or `&mut [T]` is a pointer and a count, a `&mut` of a number
// or an array a pointer. Those marked safe take and give plain numbers.
#[rustfmt::skip]
#[allow(missing_docs)]
unsafe extern "C" {
    pub fn jp_mk_false(
        n: u16,
        variable: *mut u16, variable_len: usize, low: *mut u32, low_len: usize, high: *mut u32, high_len: usize,
        size: *mut usize,
    ) -> u32;
    pub fn jp_mk_true(
        n: u16,
        variable: *mut u16, variable_len: usize, low: *mut u32, low_len: usize, high: *mut u32, high_len: usize,
        size: *mut usize,
    ) -> u32;
    pub fn jp_mk_literal(
        n: u16, v: u16, value: bool,
        variable: *mut u16, variable_len: usize, low: *mut u32, low_len: usize, high: *mut u32, high_len: usize,
        size: *mut usize,
    ) -> u32;
    pub fn jp_not(
        variable: *const u16, variable_len: usize, low: *const u32, low_len: usize, high: *const u32, high_len: usize,
        out_variable: *mut u16, out_variable_len: usize, out_low: *mut u32, out_low_len: usize,
        out_high: *mut u32, out_high_len: usize,
        size: *mut usize,
    ) -> u32;
    pub fn jp_record(file: *const u8, file_len: usize, k: usize, at: *mut usize) -> usize;
    pub fn jp_read_as_bytes(
        file: *const u8, file_len: usize,
        variable: *mut u16, variable_len: usize, low: *mut u32, low_len: usize, high: *mut u32, high_len: usize,
        records: *mut usize, tail: *mut usize,
    ) -> u32;
    pub fn jp_write_as_bytes(
        variable: *const u16, variable_len: usize, low: *const u32, low_len: usize, high: *const u32, high_len: usize,
        bytes: *mut u8, bytes_len: usize,
        written: *mut usize,
    ) -> u32;
    pub fn jp_operator(p: u8, table: *mut [u8; TABLE_ANSWERS]) -> u32;
    pub fn jp_check_table(table: *const u8, table_len: usize) -> u32;
    pub safe fn jp_op_and(l: u8, r: u8) -> u8;
    pub safe fn jp_op_or(l: u8, r: u8) -> u8;
    pub safe fn jp_op_imp(l: u8, r: u8) -> u8;
    pub safe fn jp_op_iff(l: u8, r: u8) -> u8;
    pub safe fn jp_op_xor(l: u8, r: u8) -> u8;
    pub safe fn jp_op_and_not(l: u8, r: u8) -> u8;
    pub fn jp_check_ordered(
        variable: *const u16, variable_len: usize, low: *const u32, low_len: usize, high: *const u32, high_len: usize,
    ) -> u32;
    pub fn jp_check_tidy(
        variable: *const u16, variable_len: usize, low: *const u32, low_len: usize, high: *const u32, high_len: usize,
    ) -> u32;
    pub fn jp_check_signing(
        variable: *const u16, variable_len: usize, low: *const u32, low_len: usize, high: *const u32, high_len: usize,
    ) -> u32;
    pub fn jp_value_at(
        variable: *const u16, variable_len: usize, low: *const u32, low_len: usize, high: *const u32, high_len: usize,
        setting: *const u8, setting_len: usize,
        value: *mut u32,
    ) -> u32;
    pub fn jp_same(
        lv: *const u16, lv_len: usize, ll: *const u32, ll_len: usize, lh: *const u32, lh_len: usize,
        rv: *const u16, rv_len: usize, rl: *const u32, rl_len: usize, rh: *const u32, rh_len: usize,
        setting: *mut [u8; SETTING],
        room: *mut u32, room_len: usize,
        standing: *mut u32, left: *mut u32,
    ) -> u32;
    pub fn jp_fused_binary_flip_op_with_limit(
        limit: usize,
        table: *const u8, table_len: usize,
        lv: *const u16, lv_len: usize, ll: *const u32, ll_len: usize, lh: *const u32, lh_len: usize,
        rv: *const u16, rv_len: usize, rl: *const u32, rl_len: usize, rh: *const u32, rh_len: usize,
        flip_left: u32, flip_right: u32, flip_out: u32,
        variable: *mut u16, variable_len: usize, low: *mut u32, low_len: usize, high: *mut u32, high_len: usize,
        pairs: *mut u32, pairs_len: usize, stack: *mut u32, stack_len: usize, index: *mut u32, index_len: usize,
        size: *mut usize,
    ) -> u32;
    pub fn jp_numbered_flip_op_with_limit(
        limit: usize,
        p: u8,
        lv: *const u16, lv_len: usize, ll: *const u32, ll_len: usize, lh: *const u32, lh_len: usize,
        rv: *const u16, rv_len: usize, rl: *const u32, rl_len: usize, rh: *const u32, rh_len: usize,
        flip_left: u32, flip_right: u32, flip_out: u32,
        variable: *mut u16, variable_len: usize, low: *mut u32, low_len: usize, high: *mut u32, high_len: usize,
        pairs: *mut u32, pairs_len: usize, stack: *mut u32, stack_len: usize, index: *mut u32, index_len: usize,
        size: *mut usize,
    ) -> u32;
    pub fn jp_var_exists(
        lv: *const u16, lv_len: usize, ll: *const u32, ll_len: usize, lh: *const u32, lh_len: usize,
        v: u16,
        variable: *mut u16, variable_len: usize, low: *mut u32, low_len: usize, high: *mut u32, high_len: usize,
        pairs: *mut u32, pairs_len: usize, stack: *mut u32, stack_len: usize, index: *mut u32, index_len: usize,
        size: *mut usize,
    ) -> u32;
    pub fn jp_var_for_all(
        lv: *const u16, lv_len: usize, ll: *const u32, ll_len: usize, lh: *const u32, lh_len: usize,
        v: u16,
        variable: *mut u16, variable_len: usize, low: *mut u32, low_len: usize, high: *mut u32, high_len: usize,
        pairs: *mut u32, pairs_len: usize, stack: *mut u32, stack_len: usize, index: *mut u32, index_len: usize,
        size: *mut usize,
    ) -> u32;
    pub fn jp_var_select(
        lv: *const u16, lv_len: usize, ll: *const u32, ll_len: usize, lh: *const u32, lh_len: usize,
        v: u16, value: bool,
        variable: *mut u16, variable_len: usize, low: *mut u32, low_len: usize, high: *mut u32, high_len: usize,
        pairs: *mut u32, pairs_len: usize, stack: *mut u32, stack_len: usize, index: *mut u32, index_len: usize,
        size: *mut usize,
    ) -> u32;
    pub fn jp_restrict(
        lv: *const u16, lv_len: usize, ll: *const u32, ll_len: usize, lh: *const u32, lh_len: usize,
        values: *const u8, values_len: usize,
        variable: *mut u16, variable_len: usize, low: *mut u32, low_len: usize, high: *mut u32, high_len: usize,
        stack: *mut u32, stack_len: usize, index: *mut u32, index_len: usize, map: *mut u32, map_len: usize,
        size: *mut usize,
    ) -> u32;
    pub fn jp_var_restrict(
        lv: *const u16, lv_len: usize, ll: *const u32, ll_len: usize, lh: *const u32, lh_len: usize,
        v: u16, value: bool,
        variable: *mut u16, variable_len: usize, low: *mut u32, low_len: usize, high: *mut u32, high_len: usize,
        stack: *mut u32, stack_len: usize, index: *mut u32, index_len: usize, map: *mut u32, map_len: usize,
        size: *mut usize,
    ) -> u32;
    pub fn jp_var_pick(
        lv: *const u16, lv_len: usize, ll: *const u32, ll_len: usize, lh: *const u32, lh_len: usize,
        v: u16,
        variable: *mut u16, variable_len: usize, low: *mut u32, low_len: usize, high: *mut u32, high_len: usize,
        pairs: *mut u32, pairs_len: usize, stack: *mut u32, stack_len: usize, index: *mut u32, index_len: usize,
        spare_variable: *mut u16, spare_variable_len: usize, spare_low: *mut u32, spare_low_len: usize,
        spare_high: *mut u32, spare_high_len: usize,
        size: *mut usize,
    ) -> u32;
    pub fn jp_pick(
        lv: *const u16, lv_len: usize, ll: *const u32, ll_len: usize, lh: *const u32, lh_len: usize,
        picks: *const u16, picks_len: usize,
        variable: *mut u16, variable_len: usize, low: *mut u32, low_len: usize, high: *mut u32, high_len: usize,
        pairs: *mut u32, pairs_len: usize, stack: *mut u32, stack_len: usize, index: *mut u32, index_len: usize,
        spare_variable: *mut u16, spare_variable_len: usize, spare_low: *mut u32, spare_low_len: usize,
        spare_high: *mut u32, spare_high_len: usize,
        size: *mut usize,
    ) -> u32;
    pub fn jp_check_fused_binary_flip_op(
        limit: usize,
        table: *const u8, table_len: usize,
        lv: *const u16, lv_len: usize, ll: *const u32, ll_len: usize, lh: *const u32, lh_len: usize,
        rv: *const u16, rv_len: usize, rl: *const u32, rl_len: usize, rh: *const u32, rh_len: usize,
        flip_left: u32, flip_right: u32, flip_out: u32,
        pairs: *mut u32, pairs_len: usize, stack: *mut u32, stack_len: usize,
        holds: *mut u32, count: *mut usize,
    ) -> u32;
}

/// The forms of an operator that constants give: what comes before the sets, then flips, and the call that it is.
macro_rules! forms {
    ($($name:ident($($head:ident: $of:ty),*; $($flip:ident),*) = $call:ident($($given:expr),*; $($flips:expr),*);)*) => { $(
        #[allow(missing_docs)]
        #[inline]
        #[rustfmt::skip]
        pub unsafe fn $name(
            $($head: $of,)*
            lv: *const u16, lv_len: usize, ll: *const u32, ll_len: usize, lh: *const u32, lh_len: usize,
            rv: *const u16, rv_len: usize, rl: *const u32, rl_len: usize, rh: *const u32, rh_len: usize,
            $($flip: u32,)*
            variable: *mut u16, variable_len: usize, low: *mut u32, low_len: usize, high: *mut u32, high_len: usize,
            pairs: *mut u32, pairs_len: usize, stack: *mut u32, stack_len: usize, index: *mut u32, index_len: usize,
            size: *mut usize,
        ) -> u32 {
            // SAFETY: the same pointers and counts are handed on.
            unsafe { $call(
                $($given,)*
                lv, lv_len, ll, ll_len, lh, lh_len, rv, rv_len, rl, rl_len, rh, rh_len,
                $($flips,)*
                variable, variable_len, low, low_len, high, high_len,
                pairs, pairs_len, stack, stack_len, index, index_len,
                size,
            ) }
        }
    )* };
}

forms! {
    jp_binary_op(table: *const u8, table_len: usize;)
        = jp_fused_binary_flip_op_with_limit(NO_LIMIT, table, table_len; NO_FLIP, NO_FLIP, NO_FLIP);
    jp_binary_op_with_limit(limit: usize, table: *const u8, table_len: usize;)
        = jp_fused_binary_flip_op_with_limit(limit, table, table_len; NO_FLIP, NO_FLIP, NO_FLIP);
    jp_fused_binary_flip_op(table: *const u8, table_len: usize; flip_left, flip_right, flip_out)
        = jp_fused_binary_flip_op_with_limit(NO_LIMIT, table, table_len; flip_left, flip_right, flip_out);
    jp_numbered_op(p: u8;) = jp_numbered_flip_op_with_limit(NO_LIMIT, p; NO_FLIP, NO_FLIP, NO_FLIP);
    jp_numbered_op_with_limit(limit: usize, p: u8;)
        = jp_numbered_flip_op_with_limit(limit, p; NO_FLIP, NO_FLIP, NO_FLIP);
    jp_numbered_flip_op(p: u8; flip_left, flip_right, flip_out)
        = jp_numbered_flip_op_with_limit(NO_LIMIT, p; flip_left, flip_right, flip_out);
    jp_and(;) = jp_numbered_op(AND;);
    jp_or(;) = jp_numbered_op(OR;);
    jp_xor(;) = jp_numbered_op(XOR;);
    jp_iff(;) = jp_numbered_op(IFF;);
    jp_imp(;) = jp_numbered_op(IMP;);
    jp_and_not(;) = jp_numbered_op(AND_NOT;);
}

/// The signing order of any ordered set: the and of the set with itself.
#[inline]
#[rustfmt::skip]
pub unsafe fn jp_signing_order(
    v: *const u16, v_len: usize, l: *const u32, l_len: usize, h: *const u32, h_len: usize,
    variable: *mut u16, variable_len: usize, low: *mut u32, low_len: usize, high: *mut u32, high_len: usize,
    pairs: *mut u32, pairs_len: usize, stack: *mut u32, stack_len: usize, index: *mut u32, index_len: usize,
    size: *mut usize,
) -> u32 {
    // SAFETY: the same pointers and counts are handed on, the set's twice: it is only read.
    unsafe {
        jp_and(
            v, v_len, l, l_len, h, h_len, v, v_len, l, l_len, h, h_len,
            variable, variable_len, low, low_len, high, high_len,
            pairs, pairs_len, stack, stack_len, index, index_len,
            size,
        )
    }
}

/// The dry run without flips.
#[inline]
#[rustfmt::skip]
pub unsafe fn jp_check_binary_op(
    limit: usize,
    table: *const u8, table_len: usize,
    lv: *const u16, lv_len: usize, ll: *const u32, ll_len: usize, lh: *const u32, lh_len: usize,
    rv: *const u16, rv_len: usize, rl: *const u32, rl_len: usize, rh: *const u32, rh_len: usize,
    pairs: *mut u32, pairs_len: usize, stack: *mut u32, stack_len: usize,
    holds: *mut u32, count: *mut usize,
) -> u32 {
    // SAFETY: the same pointers and counts are handed on.
    unsafe {
        jp_check_fused_binary_flip_op(
            limit,
            table, table_len,
            lv, lv_len, ll, ll_len, lh, lh_len, rv, rv_len, rl, rl_len, rh, rh_len,
            NO_FLIP, NO_FLIP, NO_FLIP,
            pairs, pairs_len, stack, stack_len,
            holds, count,
        )
    }
}
