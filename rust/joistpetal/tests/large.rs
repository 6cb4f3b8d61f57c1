//! Sets at the bounds, pair runs that must grow, and threads.
mod common;
use common::{Entry, Random, any, bytes_of, literal, of_size, option};
use joistpetal::op_function::{and, or, xor};
use joistpetal::{Bdd, Refusal};
use std::cell::RefCell;
use std::collections::HashSet;

#[test]
fn a_set_of_4096_entries() -> Result<(), Refusal> {
    let entries = of_size(4_096, 15, &mut Random(31));
    let set = any(&entries);
    assert_eq!((set.size(), set.num_vars()), (4_096, 15));
    assert!(set.is_ordered() && set.is_tidy() && set.is_signing());
    assert_eq!(set.to_bytes()?, bytes_of(&entries));
    assert_eq!(set.signing_order()?, set);
    assert_eq!(set.or(&set)?, set);
    assert_eq!(set.not()?.not()?, set);
    assert!(set.xor(&set)?.is_false());
    assert!(set.iff(&set)?.is_true());
    assert!(set.and(&set.not()?)?.is_false());
    // The limit on both sides of its size.
    assert_eq!(
        Bdd::binary_op_with_limit(4_096, &set, &set, and)?,
        Some(set.clone())
    );
    assert_eq!(Bdd::binary_op_with_limit(4_095, &set, &set, and)?, None);
    // Flipping and flipping back; the set in between may be too long, then 9 says so.
    let x = (&set, Some(option(14)));
    let flipped = Bdd::fused_binary_flip_op(x, x, None, and)?;
    let back = (&flipped, Some(option(14)));
    assert_eq!(Bdd::fused_binary_flip_op(back, back, None, or)?, set);
    Ok(())
}

/// The most options, all of them in one set.
#[test]
fn all_256_options() -> Result<(), Refusal> {
    let mut all = Bdd::mk_true(256)?;
    let mut some = Bdd::mk_false(256)?;
    for v in 0..256 {
        all = all.and(&literal(256, v, true))?;
        some = some.or(&literal(256, v, false))?;
    }
    assert_eq!(all.size(), 258);
    assert_eq!(all.not()?, some);
    assert!(all.is_signing());
    Ok(())
}

/// The different undecided pairs that and reaches, counted afresh.
fn pairs_of_and(left: &[Entry], right: &[Entry]) -> usize {
    let mut seen = HashSet::new();
    let mut stack = vec![(left.len() as u32 - 1, right.len() as u32 - 1)];
    while let Some((l, r)) = stack.pop() {
        if l == 0 || r == 0 || (l, r) == (1, 1) || !seen.insert((l, r)) {
            continue;
        }
        let ((a, ll, lh), (b, rl, rh)) = (left[l as usize], right[r as usize]);
        let (ll, lh) = if a <= b { (ll, lh) } else { (l, l) };
        let (rl, rh) = if b <= a { (rl, rh) } else { (r, r) };
        stack.extend([(ll, rl), (lh, rh)]);
    }
    seen.len()
}

/// A function of the even or the odd ones of 2n options.
fn spread(entries: &[Entry], odd: u16) -> Vec<Entry> {
    let moved = |v: u16, i: usize| if i < 2 { 2 * v } else { 2 * v + odd };
    entries
        .iter()
        .enumerate()
        .map(|(i, &(v, l, h))| (moved(v, i), l, h))
        .collect()
}

/// Two sets that ask in turn reach very many pairs: the pair run grows to its greatest room, and 7 is never seen.
#[test]
fn a_pair_run_that_grows() -> Result<(), Refusal> {
    let mut random = Random(32);
    let f = spread(&of_size(600, 13, &mut random), 0);
    let g = spread(&of_size(700, 13, &mut random), 1);
    let count = pairs_of_and(&f, &g);
    assert!(count > 64 * 2 * (600 + 700), "{count} pairs");
    let (f, g) = (any(&f), any(&g));
    assert_eq!(
        Bdd::check_binary_op(usize::MAX, &f, &g, and)?,
        Some((true, count))
    );
    assert_eq!(
        Bdd::check_binary_op(count, &f, &g, and)?,
        Some((true, count))
    );
    assert_eq!(Bdd::check_binary_op(count - 1, &f, &g, and)?, None);
    assert_eq!(Bdd::check_binary_op(0, &f, &g, and)?, None);
    assert_eq!(f.and(&g), Err(Refusal::NO_ROOM));
    assert_eq!(Bdd::binary_op_with_limit(100, &f, &g, and)?, None);
    // The runs were given back; small jobs go on as before.
    assert_eq!(
        literal(26, 0, true).xor(&literal(26, 0, true))?,
        Bdd::mk_false(26)?
    );
    Ok(())
}

/// One side of option 0 asks the odd options, the other the even ones: a quantifier of it joins the two.
#[test]
fn a_quantifier_that_grows() -> Result<(), Refusal> {
    let mut random = Random(34);
    let [f, g] = [0, 1].map(|odd| {
        let mut entries = spread(&of_size(60, 8, &mut random), odd);
        entries.iter_mut().for_each(|entry| entry.0 += 1);
        any(&entries)
    });
    let on = literal(17, 0, true);
    let both = on.and(&f)?.or(&on.not()?.and(&g)?)?;
    let at = (&both, Some(option(0)));
    let dry = Bdd::check_fused_binary_flip_op(usize::MAX, (&both, None), at, None, or)?;
    let (_, pairs) = dry.expect("no limit was asked");
    assert!(pairs > 4 * both.size(), "{pairs} pairs");
    assert_eq!(both.var_exists(option(0))?, f.or(&g)?);
    assert_eq!(both.var_for_all(option(0))?, f.and(&g)?);
    Ok(())
}

#[test]
fn threads_have_their_own_runs() {
    let entries = of_size(500, 12, &mut Random(33));
    let set = any(&entries);
    let expected = set.xor(&literal(12, 3, true)).expect("room enough");
    std::thread::scope(|scope| {
        for _ in 0..4 {
            scope.spawn(|| {
                for _ in 0..20 {
                    assert_eq!(
                        Bdd::binary_op(&set, &literal(12, 3, true), xor),
                        Ok(expected.clone())
                    );
                }
            });
        }
    });
}

/// A job that is asked for while its thread ends is done all the same.
#[test]
fn a_job_at_the_end_of_a_thread() {
    struct Last;
    impl Drop for Last {
        fn drop(&mut self) {
            assert!(
                Bdd::mk_true(1)
                    .and_then(|x| x.and(&x))
                    .is_ok_and(|x| x.is_true())
            );
        }
    }
    thread_local! {
        static FIRST: RefCell<Option<Last>> = const { RefCell::new(None) };
        static SECOND: RefCell<Option<Last>> = const { RefCell::new(None) };
    }
    let ended = std::thread::spawn(|| {
        FIRST.set(Some(Last));
        assert!(Bdd::mk_true(1).is_ok());
        SECOND.set(Some(Last));
    });
    assert!(ended.join().is_ok());
}
