//! The sets of each table, the same in every run.
use crate::case::Case;
use crate::jobs::{CHECKS, Job, What, What::*};
use compare::chance::{Chance, Draw, function_of, modular, ordered_set, unfolded};
use compare::meaning::Relation;
use compare::paper::{MOST_ENTRIES, Set};
use joistpetal_sys::{AND, OR, XOR};

/// Two sets until the crate's arrays fit into 4,096 entries.
fn fitting(what: &What, mut pair: impl FnMut() -> [Set; 2]) -> Job {
    loop {
        let job = Job::new(what.clone(), pair());
        if job.ask.s <= MOST_ENTRIES {
            return job;
        }
    }
}

/// Random functions of l entries.
fn functions(chance: &mut Chance, what: &What, n: u16, l: usize, count: usize) -> Vec<Job> {
    (0..count).map(|_| fitting(what, || [0, 0].map(|_| function_of(chance, n as u32, l)))).collect()
}

/// One random function on both sides.
fn function_twice(chance: &mut Chance, what: &What, n: u16, l: usize, count: usize) -> Vec<Job> {
    (0..count).map(|_| fitting(what, || twice(function_of(chance, n as u32, l)))).collect()
}

fn twice(set: Set) -> [Set; 2] {
    [set.clone(), set]
}

/// Sums of n options' weights modulo two numbers, whose and is false.
fn sums(chance: &mut Chance, what: &What, (n, moduli): (u16, [usize; 2]), count: usize) -> Vec<Job> {
    let pair = |chance: &mut Chance| [modular(chance, n, moduli[0], true), modular(chance, n, moduli[1], false)];
    (0..count).map(|_| Job::new(what.clone(), pair(chance))).collect()
}

/// Small sets in which every entry stands many times: about 50,000 pairs and a short array.
fn copies(chance: &mut Chance, what: &What, count: usize) -> Vec<Job> {
    let pair = |chance: &mut Chance| {
        [0, 0].map(|_| {
            let seed = ordered_set(chance, 40, 150, Draw::Layered);
            unfolded(chance, &seed, 3_000)
        })
    };
    (0..count).map(|_| fitting(what, || pair(chance))).collect()
}

/// Random functions by options and entries, and how many sets or pairs of them.
type Functions = (u16, usize, usize);

const FUNCTIONS: [Functions; 3] = [(10, 100, 16), (13, 1_000, 8), (15, 3_900, 4)];
/// Options and moduli of the sums, and of the wide sums, which have more pairs.
const SUMS: (u16, [usize; 2]) = (95, [35, 33]);
const WIDE_SUMS: (u16, [usize; 2]) = (66, [62, 61]);

/// So many small ones that the machine does not learn them by heart.
const MANY_PAIRS: Functions = (10, 100, 160);
const ENTRIES_IN_ALL: usize = 1 << 16;

fn many((n, l, _): Functions) -> Functions {
    (n, l, ENTRIES_IN_ALL / l)
}

/// A call by its name, over n options.
type Call = (&'static str, fn(u16) -> What);

/// Those whose names begin with what is asked for.
fn asked_of<'a>(calls: &'a [Call], asked: &'a str) -> impl Iterator<Item = Call> + 'a {
    calls.iter().copied().filter(move |(name, _)| name.starts_with(asked))
}

const OPERATORS: [Call; 4] = [
    ("and", |_| Operator(AND, None)),
    ("xor", |_| Operator(XOR, None)),
    ("dry and", |_| Dry(AND)),
    ("dry xor", |_| Dry(XOR)),
];

pub fn operators(asked: &str) -> Vec<Case> {
    let mut all = Vec::new();
    for (name, what) in asked_of(&OPERATORS, asked) {
        let mut chance = Chance::new(20260301);
        let mut add = |sets, jobs| all.push(Case::new(name, sets, jobs));
        for (n, l, count) in FUNCTIONS {
            add("functions", functions(&mut chance, &what(n), n, l, count));
        }
        // The xor of the sums is longer than any array may be.
        let has_sums = name != "xor";
        if has_sums {
            add("sums", sums(&mut chance, &what(SUMS.0), SUMS, 2));
        }
        add("copies", copies(&mut chance, &what(40), 2));
        if has_sums {
            add("wide sums", sums(&mut chance, &what(WIDE_SUMS.0), WIDE_SUMS, 1));
        }
        let (n, l, count) = MANY_PAIRS;
        add("many functions", functions(&mut chance, &what(n), n, l, count));
    }
    all
}

/// Options spread over n.
fn spread(n: u16, count: u16) -> Vec<u16> {
    (0..count).map(|k| (2 * k + 1) * n / (2 * count)).collect()
}

/// The calls of module 7 that have pairs.
const RELATIONS: [Call; 6] = [
    ("exists", |n| Related(Relation::Exists(n / 2))),
    ("or, flipped", |n| Operator(OR, Some(n / 2))),
    ("for all", |n| Related(Relation::ForAll(n / 2))),
    ("and, flipped", |n| Operator(AND, Some(n / 2))),
    ("pick 1", |n| Related(Relation::Pick(spread(n, 1)))),
    ("pick 4", |n| Related(Relation::Pick(spread(n, 4)))),
];

pub fn related(asked: &str) -> Vec<Case> {
    let mut all = Vec::new();
    for (name, what) in asked_of(&RELATIONS, asked) {
        let mut chance = Chance::new(20260302);
        for (n, l, count) in FUNCTIONS {
            all.push(Case::new(name, "functions", function_twice(&mut chance, &what(n), n, l, count)));
        }
    }
    all
}

const RESTRICTIONS: [Call; 3] =
    [("restrict 0", |n| fixed(n, 0)), ("restrict 1", |n| fixed(n, 1)), ("restrict 4", |n| fixed(n, 4))];

/// So many options put on.
fn fixed(n: u16, count: u16) -> What {
    let mut values = vec![2; n as usize];
    spread(n, count).into_iter().for_each(|v| values[v as usize] = 1);
    Related(Relation::Restrict(values))
}

pub fn restricted(asked: &str) -> Vec<Case> {
    let mut all = Vec::new();
    // The most entries whose output can be twice as long.
    let half = (14, 2_000, 4);
    for (name, what) in asked_of(&RESTRICTIONS, asked) {
        let mut chance = Chance::new(20260302);
        let mut add = |sets, jobs| all.push(Case::new(name, sets, jobs));
        for (n, l, count) in FUNCTIONS.into_iter().chain([half]) {
            add("functions", function_twice(&mut chance, &what(n), n, l, count));
        }
        let (n, [modulus, _]) = SUMS;
        add("sums", (0..2).map(|_| Job::new(what(n), twice(modular(&mut chance, n, modulus, true)))).collect());
        for (n, l, count) in [FUNCTIONS[0], FUNCTIONS[1], half].map(many) {
            add("many functions", function_twice(&mut chance, &what(n), n, l, count));
        }
    }
    all
}

/// The calls that are lent no working runs.
const PLAIN: [Call; 6] = [
    ("not", |_| Not),
    ("ordered", |_| Check(0)),
    ("tidy", |_| Check(1)),
    ("signing order", |_| Check(2)),
    ("write bytes", |_| Write),
    ("read bytes", |_| Read),
];

/// Options and entries of their sets.
const ENTRIES: [(u16, usize); 5] = [(10, 100), (12, 512), (13, 1_024), (14, 2_048), (15, 4_096)];

/// The sizes of the sets whose time is compared from each to its double.
pub fn doubled() -> Vec<usize> {
    ENTRIES.iter().map(|(_, l)| *l).filter(|l| l.is_power_of_two()).collect()
}

pub fn plain(asked: &str) -> Vec<Case> {
    let calls: Vec<Call> = asked_of(&PLAIN, asked).collect();
    let sizes = if calls.is_empty() { &[] } else { ENTRIES.as_slice() };
    let mut chance = Chance::new(20260304);
    let mut draw = |&(n, l): &(u16, usize)| {
        let (n, l, count) = many((n, l, 0));
        (0..count).map(|_| function_of(&mut chance, n as u32, l)).collect()
    };
    let drawn: Vec<Vec<Set>> = sizes.iter().map(&mut draw).collect();
    calls.into_iter().flat_map(|call| of_call(call, &drawn)).collect()
}

/// A call on the sets of each size, and a check on spoilt ones too.
fn of_call((name, what): Call, drawn: &[Vec<Set>]) -> Vec<Case> {
    let job = |set: Set| Job::new(what(set.variable[0]), twice(set));
    let case = |kind, sets: Vec<Set>| Case::new(name, kind, sets.into_iter().map(job).collect());
    let mut all: Vec<Case> = drawn.iter().map(|sets| case("many functions", sets.clone())).collect();
    if let Check(which) = what(0) {
        let spoil = |sets: &Vec<Set>| sets.iter().map(|set| spoilt(which, set)).collect();
        let doubled = drawn.iter().filter(|sets| doubled().contains(&sets[0].len()));
        all.extend(doubled.map(|sets| case("fail at the end", spoil(sets))));
    }
    all
}

/// A set to which the check says no at the end: those before it say yes, so that it looks at every entry, or of signing order at
/// all but the few above the exchange.
fn spoilt(which: usize, set: &Set) -> Set {
    let spoil = [bad_link, repeated, exchanged];
    let bad = spoil[which](set);
    assert!((0..=which).all(|check| CHECKS[check](&bad) == (check < which)));
    bad
}

/// The last entry links to itself.
fn bad_link(set: &Set) -> Set {
    let mut bad = set.clone();
    let last = bad.len() - 1;
    bad.low[last] = last as u32;
    bad
}

/// The last entry repeats the one in the middle.
fn repeated(set: &Set) -> Set {
    let mut bad = set.clone();
    let last = bad.len() - 1;
    (bad.variable[last], bad.low[last], bad.high[last]) = set.entry(last / 2);
    bad
}

/// The last two neighbours that can change places do: the second does not link to the first.
fn exchanged(set: &Set) -> Set {
    let linked = |i: usize| set.low[i + 1] == i as u32 || set.high[i + 1] == i as u32;
    let i = (2..set.len() - 1).rev().find(|&i| !linked(i)).expect("a pair of neighbours");
    let mut bad = set.clone();
    bad.variable.swap(i, i + 1);
    bad.low.swap(i, i + 1);
    bad.high.swap(i, i + 1);
    let (first, second) = (i as u32, i as u32 + 1);
    for link in bad.low[i + 2..].iter_mut().chain(bad.high[i + 2..].iter_mut()) {
        *link = match *link {
            l if l == first => second,
            l if l == second => first,
            l => l,
        };
    }
    bad
}

/// The functions by which growth is seen, some 300 to 7,400 pairs, and so many of them that all sizes have as many pairs.
const GROWING: [Functions; 6] =
    [(11, 185, 200), (12, 350, 100), (13, 700, 50), (14, 1_400, 24), (15, 2_700, 12), (15, 3_900, 8)];
/// The sums that go on from there to some 250,000 pairs: options, and moduli with how many pairs of sets.
const GROWING_SUMS: (u16, [([usize; 2], usize); 6]) =
    (50, [([18, 17], 5), ([26, 25], 3), ([36, 35], 2), ([50, 49], 1), ([70, 69], 1), ([92, 91], 1)]);

const GROWN: [Call; 2] = [("growth and", |_| Operator(AND, None)), ("growth dry and", |_| Dry(AND))];

pub fn growing(asked: &str) -> Vec<Case> {
    let mut all = Vec::new();
    for (name, what) in asked_of(&GROWN, asked) {
        let mut chance = Chance::new(20260303);
        let mut add = |sets, jobs| all.push(Case::of_growth(name, sets, jobs));
        for (n, l, count) in GROWING {
            add("functions", functions(&mut chance, &what(n), n, l, count));
        }
        let (n, all_moduli) = GROWING_SUMS;
        for (moduli, count) in all_moduli {
            add("sums", sums(&mut chance, &what(n), (n, moduli), count));
        }
    }
    all
}
