//! What sets mean, and how two of them stand to each other, against values worked out here at every setting.
mod common;
use common::{Random, any, array, literal, set};
use joistpetal::{Bdd, Comparison, Refusal};

/// The setting of so many options whose number, option 0 first, is k.
fn setting(n: u16, k: usize) -> Vec<bool> {
    (0..n).rev().map(|bit| k >> bit & 1 == 1).collect()
}

#[test]
fn the_march_release() -> Result<(), Refusal> {
    let joined = literal(2, 0, true).xor(&literal(2, 1, true))?;
    let restricted = set(2, &[(1, 0, 1), (1, 1, 0), (0, 2, 3)]);
    assert_eq!(joined.compare(&joined), Ok(Comparison::SameNumbers));
    assert_eq!(joined.compare(&restricted), Ok(Comparison::SameMeaning));
    let both = literal(2, 0, true).and(&literal(2, 1, true))?;
    let expected = Comparison::Differ {
        setting: vec![false, true],
        left: true,
    };
    assert_eq!(joined.compare(&both), Ok(expected));
    Ok(())
}

/// The first setting at which they differ, by trying all.
#[test]
fn every_setting_tried() {
    let mut random = Random(41);
    for round in 0..400 {
        let n = 1 + (round % 7) as u16;
        let left = random.values(n);
        let mut right = left.clone();
        for _ in 0..round % 3 {
            let k = random.below(right.len());
            right[k] = !right[k];
        }
        let (a, b) = (any(&array(&left)), any(&array(&right)));
        for (k, &on) in left.iter().enumerate() {
            assert_eq!(a.value_at(&setting(n, k)), Ok(on));
        }
        let expected = match (0..left.len()).find(|&k| left[k] != right[k]) {
            None => Comparison::SameNumbers,
            Some(k) => Comparison::Differ {
                setting: setting(n, k),
                left: left[k],
            },
        };
        assert_eq!(a.compare(&b), Ok(expected));
    }
}

#[test]
fn refused() -> Result<(), Refusal> {
    let (good, bad) = (literal(2, 0, true), set(2, &[(0, 2, 1)]));
    assert_eq!(bad.compare(&good), Err(Refusal::LEFT_NOT_ORDERED));
    assert_eq!(good.compare(&bad), Err(Refusal::RIGHT_NOT_ORDERED));
    assert_eq!(good.compare(&Bdd::mk_true(3)?), Err(Refusal::COUNTS_DIFFER));
    assert_eq!(bad.value_at(&[true, true]), Err(Refusal::LEFT_NOT_ORDERED));
    assert_eq!(good.value_at(&[true]), Err(Refusal::BAD_LIST));
    assert_eq!(good.value_at(&[true, false]), Ok(true));
    Ok(())
}
