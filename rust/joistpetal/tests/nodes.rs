//! Sets as lists of nodes.
mod common;
use common::{Entry, Random, any, array, literal, option, set};
use joistpetal::{Bdd, BddNode, BddPointer, Refusal};

fn node((variable, low, high): Entry) -> BddNode {
    BddNode::mk_node(
        option(variable.into()),
        BddPointer::from_index(low as usize),
        BddPointer::from_index(high as usize),
    )
}

fn nodes(entries: &[Entry]) -> Vec<BddNode> {
    entries.iter().copied().map(node).collect()
}

#[test]
fn there_and_back() -> Result<(), Refusal> {
    let mut random = Random(31);
    for n in 0..8 {
        let entries = array(&random.values(n));
        let made = Bdd::from_nodes(&nodes(&entries))?;
        assert_eq!(made, any(&entries));
        assert_eq!(made.clone().to_nodes(), nodes(&entries));
        assert_eq!(made.validate(), Ok(()));
    }
    assert_eq!(
        Bdd::mk_true(3)?.to_nodes(),
        [BddNode::mk_zero(3), BddNode::mk_one(3)]
    );
    Ok(())
}

#[test]
fn links_and_options_are_the_entries() {
    let xor = set(2, &[(1, 1, 0), (1, 0, 1), (0, 3, 2)]);
    assert_eq!(xor.root_pointer(), BddPointer::from_index(4));
    for (i, (variable, low, high)) in xor.entries().enumerate() {
        let at = BddPointer::from_index(i);
        assert_eq!(xor.var_of(at), Some(option(variable.into())));
        assert_eq!(
            xor.low_link_of(at).map(|link| link.to_index()),
            Some(low as usize)
        );
        assert_eq!(
            xor.high_link_of(at).map(|link| link.to_index()),
            Some(high as usize)
        );
    }
    assert_eq!(literal(1, 0, true).root_pointer().to_index(), 2);
}

/// The original panics at these.
#[test]
fn an_entry_that_is_not_there_has_nothing() {
    let drive = literal(3, 1, true);
    for index in [3, 4, 4_096, u32::MAX as usize, usize::MAX] {
        let at = BddPointer::from_index(index);
        assert_eq!(
            (
                drive.low_link_of(at),
                drive.high_link_of(at),
                drive.var_of(at)
            ),
            (None, None, None)
        );
    }
}

/// Following the links from the root comes to the value that the library tells.
fn followed(set: &Bdd, setting: &[bool]) -> Option<bool> {
    let mut at = set.root_pointer();
    while !at.is_terminal() {
        at = match setting[set.var_of(at)?.to_index()] {
            true => set.high_link_of(at)?,
            false => set.low_link_of(at)?,
        };
    }
    at.as_bool()
}

#[test]
fn following_the_links_gives_the_value() -> Result<(), Refusal> {
    let mut random = Random(32);
    for n in 1..7 {
        let made = any(&array(&random.values(n)));
        for s in 0..1 << n {
            let setting: Vec<bool> = (0..n).map(|i| s >> i & 1 == 1).collect();
            assert_eq!(followed(&made, &setting), Some(made.value_at(&setting)?));
        }
    }
    Ok(())
}

/// Whatever the nodes: taken where the library's check says ordered, else refused with 2.
#[test]
fn nodes_that_are_not_ordered_are_2() {
    let mut random = Random(33);
    let (mut taken, mut refused) = (0, 0);
    for round in 0..4_000 {
        let mut entries = array(&random.values(1 + round % 5));
        let at = random.below(entries.len());
        let near = random.below(entries.len() + 2) as u32;
        match random.below(4) {
            0 => entries[at].0 = near as u16,
            1 => entries[at].1 = near,
            2 => entries[at].2 = near,
            _ => entries.truncate(at + 1),
        }
        let damaged = any(&entries);
        match Bdd::from_nodes(&nodes(&entries)) {
            Ok(made) => {
                assert!(damaged.is_ordered() && made == damaged);
                taken += 1;
            }
            Err(why) => {
                assert!(!damaged.is_ordered() && why == Refusal::LEFT_NOT_ORDERED);
                refused += 1;
            }
        }
    }
    assert!(taken > 100 && refused > 100);
}

#[test]
fn no_nodes_and_too_many_are_2() {
    let entry = BddNode::mk_node(option(0), BddPointer::zero(), BddPointer::one());
    let mut many = vec![BddNode::mk_zero(1), BddNode::mk_one(1)];
    assert_eq!(Bdd::from_nodes(&[]), Err(Refusal::LEFT_NOT_ORDERED));
    many.resize(4_096, entry);
    assert_eq!(Bdd::from_nodes(&many).map(|set| set.size()), Ok(4_096));
    many.push(entry);
    assert_eq!(Bdd::from_nodes(&many), Err(Refusal::LEFT_NOT_ORDERED));
    assert!(Bdd::from_nodes(&[BddNode::mk_zero(257)]).is_err());
    let far = BddNode::mk_node(option(usize::MAX), BddPointer::zero(), BddPointer::one());
    assert!(Bdd::from_nodes(&[BddNode::mk_zero(1), BddNode::mk_one(1), far]).is_err());
    let high = BddNode::mk_node(
        option(0),
        BddPointer::from_index(1 << 32),
        BddPointer::one(),
    );
    assert!(Bdd::from_nodes(&[BddNode::mk_zero(1), BddNode::mk_one(1), high]).is_err());
}

/// The original's verdicts on ordered sets, oracle/FINDINGS.md.
#[test]
fn validate_is_ordered_and_reached() {
    let unreached = set(2, &[(1, 0, 1), (0, 0, 1)]);
    assert_eq!(
        unreached.validate(),
        Err("BDD has unreachable nodes.".into())
    );
    assert_eq!(set(1, &[(0, 0, 0)]).validate(), Ok(()));
    assert_eq!(
        set(2, &[(1, 0, 1), (1, 0, 1), (0, 2, 3)]).validate(),
        Ok(())
    );
    assert_eq!(
        set(2, &[(1, 0, 1), (1, 1, 0), (0, 2, 3)]).validate(),
        Ok(())
    );
    let not_ordered = Err("refusal 2: left (or only) set not ordered".into());
    assert_eq!(set(1, &[(0, 2, 2)]).validate(), not_ordered);
    // These the original lets through: a link to a later entry, a terminal that is none, too many options.
    assert_eq!(
        set(3, &[(1, 0, 3), (2, 0, 1), (0, 0, 2)]).validate(),
        not_ordered
    );
    assert_eq!(
        any(&[(2, 9, 9), (9, 9, 9), (0, 0, 1)]).validate(),
        not_ordered
    );
    assert_eq!(any(&[(257, 0, 0)]).validate(), not_ordered);
}

#[test]
fn a_refusal_goes_where_the_original_fails_with_words() {
    fn read(data: &[BddNode]) -> Result<usize, String> {
        Ok(Bdd::from_nodes(data)?.size())
    }
    assert_eq!(read(&nodes(&[(1, 0, 0), (1, 1, 1)])), Ok(2));
    assert_eq!(
        read(&[]),
        Err("refusal 2: left (or only) set not ordered".into())
    );
}

#[test]
fn pointers_and_nodes_tell_what_they_are() {
    let (zero, one, other) = (
        BddPointer::zero(),
        BddPointer::one(),
        BddPointer::from_index(2),
    );
    assert_eq!([zero, one], [false, true].map(BddPointer::from_bool));
    assert_eq!(
        [zero, one, other].map(|at| at.as_bool()),
        [Some(false), Some(true), None]
    );
    assert_eq!(
        [zero, one, other].map(|at| at.is_terminal()),
        [true, true, false]
    );
    assert_eq!(
        [zero, one, other].map(|at| (at.is_zero(), at.is_one())),
        [(true, false), (false, true), (false, false)]
    );
    let mut turned = [zero, one, other];
    turned.iter_mut().for_each(BddPointer::flip_if_terminal);
    assert_eq!(turned, [one, zero, other]);
    let wide = BddPointer::from_index(0x0102_0304);
    assert_eq!(wide.to_le_bytes(), [4, 3, 2, 1]);
    assert_eq!(BddPointer::from_le_bytes([4, 3, 2, 1]), wide);
    assert_eq!(wide.to_string(), "16909060");
    assert!(BddNode::mk_zero(2).is_zero() && BddNode::mk_one(2).is_one());
    assert!(
        !node((0, 0, 1)).is_terminal()
            && node((0, 1, 1)).is_one()
            && !node((0, 2, 2)).is_terminal()
    );
}
