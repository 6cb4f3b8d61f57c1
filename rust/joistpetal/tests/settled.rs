//! The rows of the paper's table "Settled on paper, n = 2" that are literals, operators, negation and dry runs, its bytes of
//! x0, and its case of n = 0. The row with R = 0 is a unit test of src/runs.rs: no caller lends the pair run here.
mod common;
use common::{any, literal, option, set};
use joistpetal::op_function::{and, or, xor};
use joistpetal::{Bdd, Refusal};

fn x0() -> Bdd {
    literal(2, 0, true)
}

fn x1() -> Bdd {
    literal(2, 1, true)
}

#[test]
fn literals() {
    assert_eq!(x0(), set(2, &[(0, 0, 1)]));
    assert_eq!(literal(2, 0, false), set(2, &[(0, 1, 0)]));
}

#[test]
fn and_with_its_count_and_its_limit() -> Result<(), Refusal> {
    let expected = set(2, &[(1, 0, 1), (0, 0, 2)]);
    assert_eq!(x0().and(&x1())?, expected);
    assert_eq!(expected.size(), 4);
    assert_eq!(
        Bdd::check_binary_op(usize::MAX, &x0(), &x1(), and)?,
        Some((true, 2))
    );
    assert_eq!(Bdd::binary_op_with_limit(3, &x0(), &x1(), and)?, None);
    assert_eq!(
        Bdd::binary_op_with_limit(4, &x0(), &x1(), and)?,
        Some(expected)
    );
    Ok(())
}

#[test]
fn or_and_xor() -> Result<(), Refusal> {
    assert_eq!(x0().or(&x1())?, set(2, &[(1, 0, 1), (0, 2, 1)]));
    let expected = set(2, &[(1, 1, 0), (1, 0, 1), (0, 3, 2)]);
    assert_eq!(x0().xor(&x1())?, expected);
    assert_eq!(expected.size(), 5);
    assert_eq!(Bdd::check_binary_op(3, &x0(), &x1(), xor)?, Some((true, 3)));
    assert_eq!(Bdd::check_binary_op(2, &x0(), &x1(), xor)?, None);
    Ok(())
}

#[test]
fn not_of_the_xor() -> Result<(), Refusal> {
    let expected = set(2, &[(1, 0, 1), (1, 1, 0), (0, 3, 2)]);
    assert_eq!(x0().xor(&x1())?.not()?, expected);
    assert_eq!(x0().xor(&x1())?.into_not()?, x0().iff(&x1())?);
    Ok(())
}

#[test]
fn and_with_the_left_flipped() -> Result<(), Refusal> {
    let (left, right) = (x0(), x1());
    let flipped = Bdd::fused_binary_flip_op((&left, Some(option(0))), (&right, None), None, and)?;
    assert_eq!(flipped, set(2, &[(1, 0, 1), (0, 2, 0)]));
    Ok(())
}

#[test]
fn always_and_never() -> Result<(), Refusal> {
    let not_x0 = x0().not()?;
    assert!(x0().or(&not_x0)?.is_true());
    assert_eq!(x0().or(&not_x0)?, Bdd::mk_true(2)?);
    assert_eq!(Bdd::binary_op_with_limit(1, &x0(), &not_x0, or)?, None);
    assert!(Bdd::binary_op_with_limit(2, &x0(), &not_x0, or)?.is_some());
    assert!(x0().and(&not_x0)?.is_false());
    assert_eq!(x0().and(&not_x0)?, Bdd::mk_false(2)?);
    assert_eq!(Bdd::binary_op_with_limit(0, &x0(), &not_x0, and)?, None);
    assert!(Bdd::binary_op_with_limit(1, &x0(), &not_x0, and)?.is_some());
    assert_eq!(
        Bdd::check_binary_op(1, &x0(), &not_x0, and)?,
        Some((false, 1))
    );
    Ok(())
}

#[test]
fn false_and_x0() -> Result<(), Refusal> {
    let never = Bdd::mk_false(2)?;
    assert_eq!(
        Bdd::check_binary_op(0, &never, &x0(), and)?,
        Some((false, 0))
    );
    assert_eq!(never.and(&x0())?, never);
    Ok(())
}

#[test]
fn bytes_of_x0() -> Result<(), Refusal> {
    let expected = [
        [2, 0, 0, 0, 0, 0, 0, 0, 0, 0],
        [2, 0, 1, 0, 0, 0, 1, 0, 0, 0],
        [0, 0, 0, 0, 0, 0, 1, 0, 0, 0],
    ];
    assert_eq!(x0().to_bytes()?, expected.concat());
    Ok(())
}

#[test]
fn no_options() -> Result<(), Refusal> {
    let always = Bdd::mk_true(0)?;
    assert_eq!(always.and(&always)?, any(&[(0, 0, 0), (0, 1, 1)]));
    assert_eq!(always.num_vars(), 0);
    Ok(())
}
