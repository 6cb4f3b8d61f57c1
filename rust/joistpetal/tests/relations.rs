//! Quantifiers, selection, picking and restriction: the rows of the paper's table, and random functions against the values that they must have.
mod common;
use common::{Random, any, array, array_low_first, literal, option, put, set};
use joistpetal::{Bdd, BddVariable, Refusal};

fn xor() -> Bdd {
    literal(2, 0, true)
        .xor(&literal(2, 1, true))
        .expect("two literals")
}

#[test]
fn settled_on_paper() -> Result<(), Refusal> {
    let restricted = xor().restrict(&[])?;
    assert_eq!(restricted, set(2, &[(1, 0, 1), (1, 1, 0), (0, 2, 3)]));
    assert!(!restricted.is_signing());
    assert_eq!(restricted.signing_order()?, xor());
    assert_eq!(xor().var_restrict(option(0), true)?, set(2, &[(1, 1, 0)]));
    let either = literal(2, 0, true).or(&literal(2, 1, true))?;
    assert_eq!(either.pick(&[option(0)])?, xor());
    assert_eq!(either.var_pick(option(0))?, xor());
    let smallest = set(2, &[(1, 0, 1), (0, 2, 0)]);
    assert_eq!(either.pick(&[option(0), option(1)])?, smallest);
    assert_eq!(either.pick(&[option(1), option(0)])?, smallest);
    Ok(())
}

/// A random function of each number of options from 1 to 6, and every option of it.
fn each_option(seed: u64, mut law: impl FnMut(&[bool], &Bdd, usize) -> Result<(), Refusal>) {
    let mut random = Random(seed);
    for n in (1..7).cycle().take(60) {
        let values = random.values(n);
        let f = any(&array(&values));
        for v in 0..usize::from(n) {
            law(&values, &f, v).expect("options of the set");
        }
    }
}

fn joined(f: &[bool], g: &[bool], by: fn(bool, bool) -> bool) -> Vec<bool> {
    f.iter().zip(g).map(|(a, b)| by(*a, *b)).collect()
}

/// The values with one option off, and with it on.
fn sides(values: &[bool], v: usize) -> [Vec<bool>; 2] {
    [false, true].map(|on| put(values, v, on))
}

#[test]
fn quantifiers() {
    each_option(1, |values, f, v| {
        let [off, on] = sides(values, v);
        let either = any(&array(&joined(&off, &on, |a, b| a || b)));
        let both = any(&array(&joined(&off, &on, |a, b| a && b)));
        assert_eq!(f.var_exists(option(v))?, either);
        assert_eq!(f.var_for_all(option(v))?, both);
        Ok(())
    });
}

#[test]
fn selection() {
    each_option(2, |values, f, v| {
        for value in [false, true] {
            let n = values.len().trailing_zeros() as usize;
            let kept = (0..values.len())
                .map(|s| values[s] && (s >> (n - 1 - v) & 1 == 1) == value)
                .collect::<Vec<bool>>();
            assert_eq!(f.var_select(option(v), value)?, any(&array(&kept)));
        }
        Ok(())
    });
}

#[test]
fn restriction() {
    each_option(3, |values, f, v| {
        for value in [false, true] {
            let fixed = put(values, v, value);
            let made = f.var_restrict(option(v), value)?;
            assert_eq!(made, any(&array_low_first(&fixed)));
            assert_eq!(made, f.restrict(&[(option(v), value)])?);
            assert_eq!(made.signing_order()?, any(&array(&fixed)));
        }
        Ok(())
    });
}

/// Lists in any order: each option that is named is gone, and the last value given of one counts.
#[test]
fn lists() {
    let mut random = Random(4);
    each_option(5, |values, f, _| {
        let n = usize::from(f.num_vars());
        let list: Vec<(BddVariable, bool)> = (0..random.below(2 * n))
            .map(|_| (option(random.below(n)), random.next() >> 63 == 1))
            .collect();
        let options: Vec<BddVariable> = list.iter().map(|(v, _)| *v).collect();
        let [mut some, mut all, mut fixed] = [(); 3].map(|_| values.to_vec());
        for (v, value) in &list {
            let v = v.to_index();
            let [off, on] = sides(&some, v);
            some = joined(&off, &on, |a, b| a || b);
            let [off, on] = sides(&all, v);
            all = joined(&off, &on, |a, b| a && b);
            let last = list.iter().rev().find(|(w, _)| w.to_index() == v);
            fixed = put(&fixed, v, last.map_or(*value, |(_, value)| *value));
        }
        assert_eq!(f.exists(&options)?, any(&array(&some)));
        assert_eq!(f.for_all(&options)?, any(&array(&all)));
        assert_eq!(f.restrict(&list)?, any(&array_low_first(&fixed)));
        let selected = f.select(&list)?;
        assert_eq!(selected.exists(&options)?, any(&array(&fixed)));
        assert_eq!(selected.and(f)?, selected);
        Ok(())
    });
}

/// Of the settings that differ in these options alone the first that is allowed.
fn picked(values: &[bool], options: &[usize]) -> Vec<bool> {
    let n = values.len().trailing_zeros() as usize;
    let mask: usize = options.iter().map(|v| 1 << (n - 1 - v)).sum();
    let first = |s: usize| (0..s).all(|t| t & !mask != s & !mask || !values[t]);
    (0..values.len()).map(|s| values[s] && first(s)).collect()
}

/// Every list of options, backwards too; of one option, `var_pick`.
#[test]
fn picking() -> Result<(), Refusal> {
    let mut random = Random(6);
    for n in 1..6 {
        let values = random.values(n);
        let f = any(&array(&values));
        for chosen in 0..1 << n {
            let mut options: Vec<usize> = (0..n.into()).filter(|v| chosen >> v & 1 == 1).collect();
            let expected = any(&array(&picked(&values, &options)));
            let list = |options: &[usize]| options.iter().map(|v| option(*v)).collect::<Vec<_>>();
            assert_eq!(f.pick(&list(&options))?, expected);
            options.reverse();
            assert_eq!(f.pick(&list(&options))?, expected);
            if let [v] = options[..] {
                assert_eq!(f.var_pick(option(v))?, expected);
            }
        }
    }
    Ok(())
}

/// The crate would make false of it; and an option of n or more comes first.
#[test]
fn repeats_are_10() {
    let list = |options: &[usize]| options.iter().map(|v| option(*v)).collect::<Vec<_>>();
    for repeats in [&[0, 0][..], &[1, 0, 1], &[0; 300]] {
        assert_eq!(xor().pick(&list(repeats)), Err(Refusal::BAD_LIST));
    }
    assert_eq!(xor().pick(&list(&[0, 0, 2])), Err(Refusal::NO_SUCH_OPTION));
}

/// A set in another layout, and none of its options: the one array of its function.
#[test]
fn empty_lists() -> Result<(), Refusal> {
    let other = xor().restrict(&[])?;
    assert_eq!(other.exists(&[])?, xor());
    assert_eq!(other.for_all(&[])?, xor());
    assert_eq!(other.select(&[])?, xor());
    // Picking copies.
    assert_eq!(other.pick(&[])?, other);
    Ok(())
}

/// Every call on one set and one option.
fn calls(f: &Bdd, v: usize) -> [Result<Bdd, Refusal>; 10] {
    let v = option(v);
    [
        f.var_exists(v),
        f.var_for_all(v),
        f.var_select(v, true),
        f.var_restrict(v, true),
        f.exists(&[v]),
        f.for_all(&[v]),
        f.select(&[(v, true)]),
        f.restrict(&[(v, true)]),
        f.var_pick(v),
        f.pick(&[v]),
    ]
}

#[test]
fn refused() {
    let looped = set(2, &[(0, 2, 1)]);
    for v in [0, 1, 2, 300, usize::MAX] {
        for answer in calls(&looped, v) {
            assert_eq!(answer, Err(Refusal::LEFT_NOT_ORDERED));
        }
    }
    for v in [2, 255, 256, 65_535, 65_536, usize::MAX] {
        for answer in calls(&xor(), v) {
            assert_eq!(answer, Err(Refusal::NO_SUCH_OPTION));
        }
    }
}

/// L = 1 and L = 2, restricted to themselves.
#[test]
fn terminals() -> Result<(), Refusal> {
    for f in [Bdd::mk_false(3)?, Bdd::mk_true(3)?] {
        assert_eq!(f.var_exists(option(1))?, f);
        assert_eq!(f.var_for_all(option(1))?, f);
        assert_eq!(f.var_restrict(option(1), true)?, f);
        assert_eq!(f.restrict(&[])?, f);
    }
    assert_eq!(
        Bdd::mk_true(3)?.var_select(option(1), true)?,
        literal(3, 1, true)
    );
    Ok(())
}
