//! The three checks and negation, against a second reading of the paper and, where it has a judge, the crate.
use crate::chance::{Chance, Draw, damaged, ordered_set, shuffled, signed_of, some_set};
use crate::ours::Desk;
use crate::paper::{MOST_ENTRIES, Set, one_array, one_array_by_settings, ordered, signing, tidy, value};
use crate::tally::Tally;
use crate::theirs;

/// Options up to which the values at all settings are asked as well.
pub const FEW: u16 = 6;

/// Every ordered set with n up to 2 and at most 4 entries.
pub fn small_sets() -> Vec<Set> {
    ordered_sets(4)
}

/// Every ordered set with n up to 2 and at most so many entries, up to 8: all candidates, sifted by the definition.
pub fn ordered_sets(most: usize) -> Vec<Set> {
    let mut found = Vec::new();
    for n in 0..=2 {
        let mut grown: Vec<Set> = vec![Set::terminals(n, 2)];
        found.push(Set::terminals(n, 1));
        while let Some(set) = grown.pop() {
            if set.len() < most {
                grown.extend(candidates(&set).filter(|set| ordered(set).is_some()));
            }
            found.push(set);
        }
    }
    found
}

/// One more entry with every variable up to 3 and every link up to 7.
fn candidates(set: &Set) -> impl Iterator<Item = Set> {
    let set = set.clone();
    (0..256).map(move |k| {
        let mut more = set.clone();
        more.push(k >> 6, k as u32 >> 3 & 7, k as u32 & 7);
        more
    })
}

fn verdicts(set: &Set) -> [u32; 3] {
    let Some(n) = ordered(set) else { return [0; 3] };
    let yes = |holds: bool| if holds { n as u32 + 1 } else { 0 };
    [yes(true), yes(tidy(set)), yes(signing(set))]
}

/// The checks on one set. Signing order has three judges: the layout, the values at all settings, the crate's `and`.
pub fn check(desk: &mut Desk, tally: &mut Tally, set: &Set) {
    let want = verdicts(set);
    let got = desk.checks(set);
    for (place, name) in ["ordered", "tidy", "signing"].into_iter().enumerate() {
        let outcome = if got[place] == want[place] { Ok(()) } else { Err(format!("{name}: {got:?}, not {want:?}")) };
        tally.count(outcome, || shown(set));
    }
    if want[0] > 0 {
        let own = theirs::bdd(set);
        let crates = theirs::set(own.and(&own)) == *set;
        let by_settings = |n: u16| one_array_by_settings(n, true, |setting| value(set, setting));
        let settings = set.variable[0] > FEW || by_settings(set.variable[0]) == one_array(set, true);
        assert!(crates == (want[2] > 0) && settings, "the judges disagree: {}", shown(set));
    }
}

/// Negation into output runs of these lengths.
pub fn negate(desk: &mut Desk, tally: &mut Tally, set: &Set, lengths: [usize; 3]) {
    let w = lengths.into_iter().min().unwrap().min(MOST_ENTRIES);
    let made = ordered(set).map(|_| theirs::set(theirs::bdd(set).not()));
    let number = match &made {
        None => 2,
        Some(made) if made.len() > w => 9,
        Some(_) => 0,
    };
    let answer = desk.not(set, lengths);
    let outcome = desk.judge_output(answer, number, &made.unwrap_or_default());
    tally.count(outcome, || format!("not into {lengths:?} of {}", shown(set)));
}

/// Rooms on both sides of what negation needs, equal and unequal.
fn negate_at_bounds(desk: &mut Desk, tally: &mut Tally, set: &Set) {
    let s = match set.len() {
        1 => 2,
        2 => 1,
        l => l,
    };
    for w in [0, s.saturating_sub(1), s, s + 1, s + 9] {
        negate(desk, tally, set, [w; 3]);
    }
    for place in 0..3 {
        let (mut short, mut long) = ([s; 3], [s; 3]);
        (short[place], long[place]) = (s.saturating_sub(1), s + 4);
        negate(desk, tally, set, short);
        negate(desk, tally, set, long);
    }
}

pub fn shown(set: &Set) -> String {
    if set.len() > 40 {
        return format!("n {} L {}", set.variable[0], set.len());
    }
    format!("{:?} {:?} {:?}", set.variable, set.low, set.high)
}

const NEW_VARIABLES: [u16; 12] = [0, 1, 2, 3, 4, 5, 255, 256, 257, 32768, 65534, 65535];
const NEW_LINKS: [u32; 15] = [0, 1, 2, 3, 4, 5, 255, 256, 4095, 4096, 65535, 65536, 65537, 1 << 31, u32::MAX];

/// Every change of one number.
pub fn changes(set: &Set) -> Vec<Set> {
    let mut all = Vec::new();
    for i in 0..set.len() {
        all.extend(NEW_VARIABLES.map(|new| changed(set, |bad| bad.variable[i] = new)));
        all.extend(NEW_LINKS.map(|new| changed(set, |bad| bad.low[i] = new)));
        all.extend(NEW_LINKS.map(|new| changed(set, |bad| bad.high[i] = new)));
    }
    all
}

fn changed(set: &Set, change: impl Fn(&mut Set)) -> Set {
    let mut bad = set.clone();
    change(&mut bad);
    bad
}

/// The runs one longer, one shorter, empty: each alone and two together.
pub fn unequal(set: &Set) -> Vec<Set> {
    let resize = |which: usize, by: isize| {
        changed(set, |bad| {
            let l = (set.len() as isize + by).max(0) as usize;
            match which {
                0 => bad.variable.resize(l, 0),
                1 => bad.low.resize(l, 0),
                _ => bad.high.resize(l, 0),
            }
        })
    };
    let cut = |which: usize| changed(set, |bad| [&mut bad.low, &mut bad.high][which].clear());
    let mut all: Vec<Set> = (0..3).flat_map(|which| [1, -1, 7].map(|by| resize(which, by))).collect();
    all.extend((0..2).map(cut));
    all.push(changed(set, |bad| bad.variable.clear()));
    all.push(changed(set, |bad| {
        bad.low.push(0);
        bad.high.push(0);
    }));
    all
}

pub fn exhaustive(desk: &mut Desk, tally: &mut Tally) {
    let sets = small_sets();
    tally.family("checks: every ordered set, n to 2, L to 4");
    sets.iter().for_each(|set| check(desk, tally, set));
    tally.family("negation: the same sets, rooms at every boundary");
    sets.iter().for_each(|set| negate_at_bounds(desk, tally, set));
    tally.family("checks and negation: the same, every one number changed");
    for set in sets.iter().flat_map(|set| changes(set)) {
        check(desk, tally, &set);
        negate(desk, tally, &set, [6; 3]);
    }
    tally.family("checks and negation: the same, runs of unequal lengths");
    for set in sets.iter().flat_map(|set| unequal(set)) {
        check(desk, tally, &set);
        negate(desk, tally, &set, [12; 3]);
    }
    tally.family("checks: every array of numbers to 3, L to 4");
    (0..=4).for_each(|l| every_array(desk, tally, l));
}

/// All arrays of l entries with numbers up to 3; negation as well where it costs little.
fn every_array(desk: &mut Desk, tally: &mut Tally, l: usize) {
    let mut set = Set { variable: vec![0; l], low: vec![0; l], high: vec![0; l] };
    for code in 0..1u64 << (6 * l) {
        for i in 0..l {
            let entry = code >> (6 * i) & 63;
            (set.variable[i], set.low[i], set.high[i]) = ((entry >> 4) as u16, entry as u32 >> 2 & 3, entry as u32 & 3);
        }
        check(desk, tally, &set);
        if l < 4 {
            negate(desk, tally, &set, [l + 1; 3]);
        }
    }
}

fn size(chance: &mut Chance) -> (u16, usize) {
    let n = chance.one_of(&[1, 2, 3, 5, 8, 13, 40, 100, 255, 256, 256]);
    let most = chance.one_of(&[3, 6, 12, 40, 200, 1000, 4096]);
    (n, 1 + chance.below(most))
}

/// A set of any kind, and copies of it with one number changed.
pub fn random(desk: &mut Desk, tally: &mut Tally, rounds: usize) {
    let mut chance = Chance::new(1);
    tally.family("checks and negation: sets at random, n to 256, L to 4,096");
    let mut kept: Vec<Set> = Vec::new();
    for round in 0..rounds {
        let (n, l) = size(&mut chance);
        let set = some_set(&mut chance, n, l);
        check(desk, tally, &set);
        match round % 8 {
            0 => negate_at_bounds(desk, tally, &set),
            _ => negate(desk, tally, &set, [set.len().max(2) + chance.below(4); 3]),
        }
        kept.push(set);
    }
    tally.family("checks and negation: copies of these, damaged in one number");
    for set in &kept {
        for _ in 0..8 {
            let bad = damaged(&mut chance, set);
            check(desk, tally, &bad);
            negate(desk, tally, &bad, [bad.len() + chance.below(3); 3]);
        }
    }
    tally.family("checks: signed sets, two neighbours exchanged or an entry repeated");
    for set in &kept {
        let set = one_array(set, true);
        check(desk, tally, &shuffled(&mut chance, &set));
        check(desk, tally, &repeated(&mut chance, &set));
    }
}

/// One entry stands twice in a row, and some links to it lead to the copy.
fn repeated(chance: &mut Chance, set: &Set) -> Set {
    if set.len() < 3 {
        return set.clone();
    }
    let twice = 2 + chance.below(set.len() - 2);
    let mut made = Set::terminals(set.variable[0], 2);
    let moved =
        |link: u32, copy: bool| if link as usize > twice || link as usize == twice && copy { link + 1 } else { link };
    for i in 2..set.len() {
        let (variable, low, high) = set.entry(i);
        let entry = (variable, moved(low, chance.once_in(2)), moved(high, chance.once_in(2)));
        for _ in 0..if i == twice { 2 } else { 1 } {
            made.push(entry.0, entry.1, entry.2);
        }
    }
    made
}

/// Sets at each bound of n and L, all else being in order.
pub fn boundary_sets(chance: &mut Chance) -> Vec<Set> {
    let mut all = vec![Set::default()];
    for n in [0, 1, 254, 255, 256, 257, 258, 65535] {
        all.extend((1..=2).map(|l| Set::terminals(n, l)));
        for variable in [0, n.saturating_sub(1), n] {
            let mut set = Set::terminals(n, 2);
            set.push(variable, 0, 1);
            all.push(set);
        }
    }
    for l in [4094, 4095, 4096] {
        let signed = signed_of(chance, 256, l);
        all.push(one_array(&signed, false));
        all.push(shuffled(chance, &signed));
        all.push(signed);
        all.extend([1, 2, 255].map(|n| ordered_set(chance, n, l, Draw::Layered)));
        all.push(ordered_set(chance, 256, l, Draw::Scattered));
    }
    // One entry more, and one option more.
    let longer: Vec<Set> = all.iter().filter(|set| set.len() == 4096).map(one_longer).collect();
    all.extend(longer);
    all.push(ordered_set(chance, 257, 4096, Draw::Layered));
    all.push(ordered_set(chance, 255, 4096, Draw::Layered));
    all
}

fn one_longer(set: &Set) -> Set {
    changed(set, |longer| longer.push(0, 0, 1))
}

pub fn boundaries(desk: &mut Desk, tally: &mut Tally) {
    let mut chance = Chance::new(2);
    tally.family("checks and negation: n 0, 255, 256, 257, L 0, 1, 2, 4,095 to 4,097");
    for set in boundary_sets(&mut chance) {
        check(desk, tally, &set);
        negate_at_bounds(desk, tally, &set);
        for w in [4095, 4096, 4097, 5000] {
            negate(desk, tally, &set, [w; 3]);
        }
        for bad in unequal(&set) {
            check(desk, tally, &bad);
            negate(desk, tally, &bad, [4096; 3]);
        }
    }
}
