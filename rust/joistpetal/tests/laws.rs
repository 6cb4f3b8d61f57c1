//! What holds of the files that are hashed, on random sets, and every operator against the values that it must have.
mod common;
use common::{Random, any, array, literal, option, set, switched};
use joistpetal::{Bdd, Refusal, op_function};

/// Random sets in signing order, of each number of options up to 6.
fn some_sets(seed: u64) -> impl Iterator<Item = [Bdd; 3]> {
    let mut random = Random(seed);
    (0..7)
        .cycle()
        .take(140)
        .map(move |n| std::array::from_fn(|_| any(&array(&random.values(n)))))
}

#[test]
fn de_morgan() -> Result<(), Refusal> {
    for [f, g, _] in some_sets(1) {
        let (nf, ng) = (f.not()?, g.not()?);
        assert_eq!(f.and(&g)?.not()?.to_bytes()?, nf.or(&ng)?.to_bytes()?);
        assert_eq!(f.or(&g)?.not()?.to_bytes()?, nf.and(&ng)?.to_bytes()?);
        assert_eq!(f.and_not(&g)?.to_bytes()?, f.and(&ng)?.to_bytes()?);
        assert_eq!(f.imp(&g)?.to_bytes()?, nf.or(&g)?.to_bytes()?);
        assert_eq!(f.iff(&g)?.not()?.to_bytes()?, f.xor(&g)?.to_bytes()?);
    }
    Ok(())
}

#[test]
fn distribution() -> Result<(), Refusal> {
    for [f, g, h] in some_sets(2) {
        let (one, other) = (f.and(&g.or(&h)?)?, f.and(&g)?.or(&f.and(&h)?)?);
        assert_eq!(one.to_bytes()?, other.to_bytes()?);
        let (one, other) = (f.or(&g.and(&h)?)?, f.or(&g)?.and(&f.or(&h)?)?);
        assert_eq!(one.to_bytes()?, other.to_bytes()?);
    }
    Ok(())
}

#[test]
fn flipping_twice() -> Result<(), Refusal> {
    for [f, _, _] in some_sets(3) {
        for v in 0..usize::from(f.num_vars()) {
            let flip = |set: &Bdd| {
                let both = (set, Some(option(v)));
                Bdd::fused_binary_flip_op(both, both, None, op_function::and)
            };
            let flip_output = |set: &Bdd| {
                Bdd::fused_binary_flip_op(
                    (set, None),
                    (set, None),
                    Some(option(v)),
                    op_function::or,
                )
            };
            assert_eq!(flip(&flip(&f)?)?.to_bytes()?, f.to_bytes()?);
            assert_eq!(flip_output(&flip_output(&f)?)?.to_bytes()?, f.to_bytes()?);
            assert_eq!(flip_output(&flip(&f)?)?.to_bytes()?, f.to_bytes()?);
        }
    }
    Ok(())
}

#[test]
fn negation_twice() -> Result<(), Refusal> {
    for [f, _, _] in some_sets(4) {
        assert_eq!(f.not()?.not()?, f);
        assert!(f.not()?.is_signing());
    }
    Ok(())
}

/// Bit 2a+b of p is the value at a, b.
fn at(p: u8, a: bool, b: bool) -> bool {
    p >> (2 * a as u8 + b as u8) & 1 == 1
}

#[test]
fn sixteen_operators_with_flips() -> Result<(), Refusal> {
    let mut random = Random(5);
    for n in 1..7 {
        for p in 0..16 {
            let [f, g] = [random.values(n), random.values(n)];
            let [a, b, c] = std::array::from_fn(|_| random.below(usize::from(n)));
            let (left, right) = (any(&array(&f)), any(&array(&g)));
            let (f, g) = (switched(&f, a), switched(&g, b));
            let joined: Vec<bool> = (0..f.len()).map(|s| at(p, f[s], g[s])).collect();
            let made = Bdd::fused_binary_flip_op(
                (&left, Some(option(a))),
                (&right, Some(option(b))),
                Some(option(c)),
                op_function::numbered(p)?,
            )?;
            assert_eq!(made, any(&array(&switched(&joined, c))));
            assert!(made.is_signing());
        }
    }
    Ok(())
}

/// x0 and x0 holds nowhere exactly where one of the two is flipped.
#[test]
fn dry_runs_with_flips() -> Result<(), Refusal> {
    let x0 = literal(2, 0, true);
    let flip = Some(option(0));
    for (left, right, output, holds) in [
        (None, None, None, true),
        (flip, None, None, false),
        (None, flip, None, false),
        (None, None, flip, true),
        (flip, flip, None, true),
        (flip, None, flip, false),
    ] {
        let (left, right) = ((&x0, left), (&x0, right));
        let dry = Bdd::check_fused_binary_flip_op(9, left, right, output, op_function::and)?;
        assert_eq!(dry, Some((holds, 1)));
        let made = Bdd::fused_binary_flip_op(left, right, output, op_function::and)?;
        assert_eq!(made.is_false(), !holds);
    }
    Ok(())
}

type Named = fn(&Bdd, &Bdd) -> Result<Bdd, Refusal>;
type Function = fn(Option<bool>, Option<bool>) -> Option<bool>;

#[test]
fn names_functions_and_numbers_agree() -> Result<(), Refusal> {
    let named: [(Named, Function, u8); 6] = [
        (Bdd::and, op_function::and, 8),
        (Bdd::or, op_function::or, 14),
        (Bdd::xor, op_function::xor, 6),
        (Bdd::iff, op_function::iff, 9),
        (Bdd::imp, op_function::imp, 11),
        (Bdd::and_not, op_function::and_not, 4),
    ];
    for (by_name, function, p) in named {
        let by_number = op_function::numbered(p)?;
        for l in [Some(false), Some(true), None] {
            for r in [Some(false), Some(true), None] {
                assert_eq!(function(l, r), by_number(l, r));
            }
            if let Some(l) = l {
                assert_eq!(function(Some(l), Some(true)), Some(at(p, l, true)));
                assert_eq!(function(Some(l), Some(false)), Some(at(p, l, false)));
            }
        }
        for [f, g, _] in some_sets(6).take(21) {
            let expected = by_name(&f, &g)?;
            assert_eq!(Bdd::binary_op(&f, &g, function)?, expected);
            assert_eq!(Bdd::binary_op(&f, &g, by_number.clone())?, expected);
        }
    }
    Ok(())
}

#[test]
fn limits_at_the_size_and_the_count() -> Result<(), Refusal> {
    for [f, g, _] in some_sets(7) {
        let whole = f.xor(&g)?;
        let size = whole.size();
        let limited = |limit| Bdd::binary_op_with_limit(limit, &f, &g, op_function::xor);
        assert_eq!(limited(size)?, Some(whole));
        assert_eq!(limited(size - 1)?, None);
        let dry = |limit| Bdd::check_binary_op(limit, &f, &g, op_function::xor);
        let (holds, count) = dry(usize::MAX)?.expect("no limit");
        assert_eq!(holds, size > 1);
        assert!(size <= count + 2);
        assert_eq!(dry(count)?, Some((holds, count)));
        if count > 0 {
            assert_eq!(dry(count - 1)?, None);
        }
    }
    Ok(())
}

#[test]
fn signing_order_of_other_layouts() -> Result<(), Refusal> {
    // Low side first, as a restriction leaves it.
    let low_first = set(2, &[(1, 0, 1), (1, 1, 0), (0, 2, 3)]);
    assert!(low_first.is_ordered() && low_first.is_tidy() && !low_first.is_signing());
    let signing = low_first.signing_order()?;
    assert_eq!(signing, literal(2, 0, true).xor(&literal(2, 1, true))?);
    assert!(signing.is_signing());
    // An entry with equal links, and an entry twice.
    for untidy in [
        set(2, &[(1, 0, 1), (0, 2, 2)]),
        set(2, &[(1, 0, 1), (1, 0, 1), (0, 2, 3)]),
    ] {
        assert!(untidy.is_ordered() && !untidy.is_tidy() && !untidy.is_signing());
        assert_eq!(untidy.signing_order()?, literal(2, 1, true));
    }
    Ok(())
}

#[test]
fn equal_sets_hash_equally_and_clones_share() -> Result<(), Refusal> {
    let mut seen = std::collections::HashSet::new();
    let made = literal(3, 0, true).and(&literal(3, 2, true))?;
    let again = literal(3, 2, true).and(&literal(3, 0, true))?;
    seen.insert(made.clone());
    assert!(!seen.insert(again));
    assert_eq!(
        format!("{:?}", literal(1, 0, true)),
        "Bdd[(1, 0, 0), (1, 1, 1), (0, 0, 1)]"
    );
    Ok(())
}
