//! Every refusal that a caller can see, with its number and words, and that nothing stays behind after one. 6, 7 and 10 are
//! not among them: the crate lends enough, tests/comparing.rs has the 10 of a setting, and tests/relations.rs that of picking with the
//! other refusals of quantifiers, selection, picking and restriction. src/runs.rs tests 6 and 7 below the API.
mod common;
use common::{Random, any, array, literal, of_size, option, set};
use joistpetal::op_function::{and, xor};
use joistpetal::{Bdd, BddVariableSet, Refusal};
use std::error::Error;

/// The refusal's constant, number and words all say the same.
fn says<T>(answer: Result<T, Refusal>, refusal: Refusal, number: u32, words: &str) {
    let error = answer.err().expect("a refusal");
    assert_eq!(error, refusal);
    assert_eq!(error.number(), number);
    assert_eq!(error.words(), words);
    let boxed: Box<dyn Error> = error.into();
    assert_eq!(boxed.to_string(), format!("refusal {number}: {words}"));
}

/// A link to itself.
fn not_ordered() -> Bdd {
    set(2, &[(0, 2, 1)])
}

fn x0() -> Bdd {
    literal(2, 0, true)
}

const BAD_TABLE: &str = "operator table or operator number bad";
const LEFT: &str = "left (or only) set not ordered";
const OPTION: &str = "a variable or flip is n or more; a literal's or terminal's n above 256";
const NO_ROOM: &str = "S > W, where W < limit or no limit is asked";

#[test]
fn a_bad_table_is_1() {
    let nothing = |_, _| None;
    let takes_back = |l: Option<bool>, r: Option<bool>| match (l, r) {
        (None, None) => Some(true),
        _ => and(l, r),
    };
    says(
        Bdd::binary_op(&x0(), &x0(), nothing),
        Refusal::BAD_TABLE,
        1,
        BAD_TABLE,
    );
    says(
        Bdd::binary_op(&x0(), &x0(), takes_back),
        Refusal::BAD_TABLE,
        1,
        BAD_TABLE,
    );
    says(
        Bdd::check_binary_op(9, &x0(), &x0(), nothing),
        Refusal::BAD_TABLE,
        1,
        BAD_TABLE,
    );
    let numbers: Vec<u8> = (0..=255)
        .filter(|p| joistpetal::op_function::numbered(*p).is_ok())
        .collect();
    assert_eq!(numbers, (0..16).collect::<Vec<u8>>());
    says(
        joistpetal::op_function::numbered(16),
        Refusal::BAD_TABLE,
        1,
        BAD_TABLE,
    );
}

#[test]
fn a_left_set_not_ordered_is_2() {
    let bad = not_ordered();
    assert!(!bad.is_ordered() && !bad.is_tidy() && !bad.is_signing());
    says(bad.not(), Refusal::LEFT_NOT_ORDERED, 2, LEFT);
    says(bad.and(&x0()), Refusal::LEFT_NOT_ORDERED, 2, LEFT);
    says(bad.signing_order(), Refusal::LEFT_NOT_ORDERED, 2, LEFT);
    says(bad.to_bytes(), Refusal::LEFT_NOT_ORDERED, 2, LEFT);
    says(
        Bdd::check_binary_op(9, &bad, &x0(), and),
        Refusal::LEFT_NOT_ORDERED,
        2,
        LEFT,
    );
}

#[test]
fn a_right_set_not_ordered_is_3() {
    let words = "right set not ordered";
    says(
        x0().and(&not_ordered()),
        Refusal::RIGHT_NOT_ORDERED,
        3,
        words,
    );
    says(
        Bdd::check_binary_op(9, &x0(), &not_ordered(), and),
        Refusal::RIGHT_NOT_ORDERED,
        3,
        words,
    );
}

#[test]
fn different_option_counts_are_4() {
    let words = "option counts differ";
    says(
        x0().and(&literal(3, 0, true)),
        Refusal::COUNTS_DIFFER,
        4,
        words,
    );
    says(
        Bdd::check_binary_op(9, &x0(), &literal(1, 0, true), and),
        Refusal::COUNTS_DIFFER,
        4,
        words,
    );
}

#[test]
fn an_option_or_flip_of_n_or_more_is_5() {
    for v in [2, 255, 256, 65_535, 65_536, 65_537, usize::MAX] {
        says(
            Bdd::mk_literal(2, option(v), true),
            Refusal::NO_SUCH_OPTION,
            5,
            OPTION,
        );
        let (kept, flipped) = ((&x0(), None), (&x0(), Some(option(v))));
        says(
            Bdd::fused_binary_flip_op(flipped, kept, None, and),
            Refusal::NO_SUCH_OPTION,
            5,
            OPTION,
        );
        says(
            Bdd::fused_binary_flip_op(kept, flipped, None, and),
            Refusal::NO_SUCH_OPTION,
            5,
            OPTION,
        );
        says(
            Bdd::fused_binary_flip_op(kept, kept, flipped.1, and),
            Refusal::NO_SUCH_OPTION,
            5,
            OPTION,
        );
        says(
            Bdd::check_fused_binary_flip_op(9, kept, kept, flipped.1, and),
            Refusal::NO_SUCH_OPTION,
            5,
            OPTION,
        );
        assert_eq!(option(v).to_index(), v);
    }
}

#[test]
fn more_than_256_options_are_5() {
    for n in [257, 65_535] {
        says(Bdd::mk_false(n), Refusal::NO_SUCH_OPTION, 5, OPTION);
        says(Bdd::mk_true(n), Refusal::NO_SUCH_OPTION, 5, OPTION);
        says(
            BddVariableSet::new_anonymous(n).mk_var(option(0)),
            Refusal::NO_SUCH_OPTION,
            5,
            OPTION,
        );
    }
    assert!(Bdd::mk_true(256).is_ok());
    assert!(Bdd::mk_literal(256, option(255), false).is_ok());
}

/// Over the limit is `None`, and an error by its number where the caller wants one.
#[test]
fn over_the_limit_is_8() -> Result<(), Refusal> {
    let x1 = literal(2, 1, true);
    let words = "S > limit and limit at most W";
    let operator = Bdd::binary_op_with_limit(3, &x0(), &x1, and)?;
    says(
        operator.ok_or(Refusal::OVER_LIMIT),
        Refusal::OVER_LIMIT,
        8,
        words,
    );
    let dry = Bdd::check_binary_op(1, &x0(), &x1, and)?;
    says(
        dry.ok_or(Refusal::OVER_LIMIT),
        Refusal::OVER_LIMIT,
        8,
        words,
    );
    Ok(())
}

/// Two sets of 3,000 entries each, one on only where option 0 is off, the other only where it is on.
fn too_long_together() -> (Bdd, Bdd) {
    let mut random = Random(11);
    let [f, g] = [0; 2].map(|_| any(&of_size(3_000, 16, &mut random)));
    let g = (&g, Some(option(0)));
    (
        f,
        Bdd::fused_binary_flip_op(g, g, None, and).expect("no longer than it was"),
    )
}

/// Over 4,096 entries: 9, or over the limit if that is no more than 4,096.
#[test]
fn no_room_is_9() -> Result<(), Refusal> {
    let (f, g) = too_long_together();
    says(f.xor(&g), Refusal::NO_ROOM, 9, NO_ROOM);
    says(
        Bdd::binary_op_with_limit(4_097, &f, &g, xor),
        Refusal::NO_ROOM,
        9,
        NO_ROOM,
    );
    assert_eq!(Bdd::binary_op_with_limit(4_096, &f, &g, xor)?, None);
    assert_eq!(Bdd::binary_op_with_limit(4_095, &f, &g, xor)?, None);
    Ok(())
}

/// The first that holds is answered.
#[test]
fn the_papers_order() {
    let (bad, other) = (not_ordered(), set(3, &[(0, 2, 1)]));
    let numbers = |answer: Result<Bdd, Refusal>| answer.unwrap_err().number();
    let nothing = |_, _| None;
    assert_eq!(numbers(Bdd::binary_op(&bad, &other, nothing)), 1);
    assert_eq!(numbers(Bdd::binary_op(&bad, &other, and)), 2);
    assert_eq!(numbers(x0().and(&other)), 3);
    let (left, right) = (x0(), literal(3, 0, true));
    let flips =
        |right| Bdd::fused_binary_flip_op((&left, Some(option(7))), (right, None), None, and);
    assert_eq!(numbers(flips(&right)), 4);
    assert_eq!(numbers(flips(&left)), 5);
}

/// A refusal leaves nothing in the lent runs that a later answer could show, nor does a function that panics.
#[test]
fn answers_after_refusals() -> Result<(), Refusal> {
    let (f, g) = too_long_together();
    let mut random = Random(12);
    let [a, b] = [random.values(5), random.values(5)];
    let joined: Vec<bool> = (0..32).map(|s| a[s] ^ b[s]).collect();
    let (a, b) = (any(&array(&a)), any(&array(&b)));
    for _ in 0..3 {
        assert!(f.xor(&g).is_err());
        assert!(Bdd::binary_op_with_limit(3, &a, &b, xor)?.is_none());
        assert!(not_ordered().and(&a).is_err());
        let panics =
            std::panic::catch_unwind(|| Bdd::binary_op(&a, &b, |_, _| panic!("the caller's own")));
        assert!(panics.is_err());
        assert_eq!(a.xor(&b)?, any(&array(&joined)));
    }
    Ok(())
}
