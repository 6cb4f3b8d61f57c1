//! Module 7: quantifiers, selection, restriction, picking. Arrays, T and S of each step are the crate's, and the arrays those of a
//! second reading of the paper as well; refusals are the paper's.
use crate::chance::{Chance, damaged, function_of, modular, signed_of, some_set};
use crate::checks::{FEW, boundary_sets, changes, ordered_sets, shown, small_sets, unequal};
use crate::meaning::{self, Loan, Relation, Step, must, must_by_settings};
use crate::operators::{MOST_PAIRS, unordered};
use crate::ours::Desk;
use crate::paper::{MOST_ENTRIES, Rooms, Set, one_array, ordered};
use crate::tally::Tally;
use crate::theirs;
use Relation::*;

/// The parts of module 7, by what they are lent.
#[derive(Clone, Copy, PartialEq)]
pub enum Part {
    Quantified,
    Restricted,
    Picked,
}

impl Part {
    fn named(self, family: &str) -> String {
        let name = match self {
            Part::Quantified => "quantifiers, selection",
            Part::Restricted => "restriction",
            Part::Picked => "picking",
        };
        format!("{name}: {family}")
    }
}

/// Every family of a part.
pub fn all(desk: &mut Desk, tally: &mut Tally, part: Part) {
    exhaustive(desk, tally, part);
    refusals(desk, tally, part, 2_000);
    damage(desk, tally, part, 40_000);
    boundaries(desk, tally, part);
    random(desk, tally, part);
}

/// A call on a set, and what the crate says of it where it may be asked.
struct Case<'a> {
    set: &'a Set,
    relation: &'a Relation,
    steps: Vec<Step>,
    made: Set,
}

impl<'a> Case<'a> {
    fn new(set: &'a Set, relation: &'a Relation) -> Case<'a> {
        if meaning::asked(set, relation).is_err() {
            return Case { set, relation, steps: Vec::new(), made: Set::default() };
        }
        let (made, steps) = theirs::relate(&theirs::bdd(set), relation, MOST_PAIRS);
        let made = made.map(theirs::set).unwrap_or_default();
        let agree = |must: fn(&Set, &Relation) -> Set| must(set, relation) == made;
        let finished = steps.iter().all(|step| step.s <= MOST_ENTRIES);
        let judged = !finished || agree(must) && (set.variable[0] > FEW || agree(must_by_settings));
        assert!(judged, "the judges disagree: {relation:?} of {}", shown(set));
        Case { set, relation, steps, made }
    }

    fn n(&self) -> usize {
        self.set.variable.first().map_or(0, |&n| n as usize)
    }

    /// The most pairs and entries that a step asks for, as far as rooms for them can be lent.
    fn t(&self) -> usize {
        self.steps.iter().map(|step| step.t.min(MOST_PAIRS)).max().unwrap_or(1)
    }

    fn s(&self) -> usize {
        self.steps.iter().map(|step| step.s.min(MOST_ENTRIES)).max().unwrap_or(3)
    }

    /// Room for W entries and R pairs, all else just long enough.
    fn loan(&self, w: usize, r: usize) -> Loan {
        let spare = (self.relation.picked().unwrap_or(0) + 4) * w.min(MOST_ENTRIES);
        let rooms = Rooms { output: [w; 3], pairs: 4 * r, stack: 2 * self.n() + 1, index: w.min(MOST_ENTRIES) };
        Loan { rooms, map: self.set.len(), spare: [spare; 3] }
    }

    fn exact(&self) -> Loan {
        self.loan(self.s(), self.t())
    }
}

/// One call, judged.
fn relate(desk: &mut Desk, tally: &mut Tally, case: &Case, loan: &Loan) {
    let Case { set, relation, steps, made } = case;
    let number = match meaning::early(set, relation, loan) {
        0 => meaning::late(steps, &loan.rooms),
        early => early,
    };
    let answer = desk.relate(relation, set, loan);
    let outcome = desk.judge_relation(answer, number, made);
    tally.count(outcome, || format!("{relation:?} {loan:?}\n  of {}", shown(set)));
}

/// Rooms on both sides of what each step asks for, and of what each run must have.
fn bounds(case: &Case) -> Vec<Loan> {
    let (s, t) = (case.s(), case.t());
    let mut rooms = vec![(s, t), (s + 2, t + 2), (0, t), (0, 0), (s, 0), (s - 1, t.max(1) - 1)];
    for step in case.steps.iter().filter(|step| step.t <= MOST_PAIRS && step.s <= MOST_ENTRIES) {
        rooms.extend([(step.s - 1, t), (step.s, t), (step.s, step.t), (step.s - 1, step.t), (step.s + 1, step.t)]);
        rooms.extend([(s, step.t.max(1) - 1), (s, step.t), (s, step.t + 1), (step.s, step.t.max(1) - 1)]);
    }
    rooms.sort_unstable();
    rooms.dedup();
    let exact = rooms.into_iter().map(|(w, r)| case.loan(w, r));
    exact.flat_map(|loan| [loan, roomy(&loan)]).chain(lengths(case, s)).collect()
}

/// The same W and R, all else longer than it must be.
fn roomy(loan: &Loan) -> Loan {
    let Loan { rooms, map, spare } = *loan;
    let [a, b, c] = rooms.output;
    let rooms =
        Rooms { output: [a + 2, b, c + 9], pairs: rooms.pairs + 3, stack: rooms.stack + 2, index: rooms.index + 20 };
    Loan { rooms, map: map + 4, spare: spare.map(|len| len + 100) }
}

/// Lengths on both sides of 2n + 1, W, L and (k + 4) W, one run at a time.
fn lengths(case: &Case, w: usize) -> Vec<Loan> {
    let exact = case.loan(w, case.t());
    let Loan { rooms, map, spare } = exact;
    let with = |rooms: Rooms| Loan { rooms, ..exact };
    let mut all = vec![
        with(Rooms { stack: rooms.stack - 1, ..rooms }),
        with(Rooms { stack: 0, pairs: 0, ..rooms }),
        with(Rooms { index: rooms.index - 1, ..rooms }),
        with(Rooms { index: 0, pairs: 0, ..rooms }),
        with(Rooms { index: w - 1, output: [w + 4, w - 1, w + 1], ..rooms }),
        with(Rooms { output: [w + 4, w + 1, w], ..rooms }),
        with(Rooms { output: [w, w + 3, w + 1], ..rooms }),
        with(Rooms { pairs: rooms.pairs.max(1) - 1, ..rooms }),
        with(Rooms { pairs: rooms.pairs + 3, stack: rooms.stack + 9, index: rooms.index + 5, ..rooms }),
    ];
    if case.relation.restricts() {
        all.extend([map.max(1) - 1, 0, map + 3].map(|map| Loan { map, ..exact }));
    }
    if case.relation.picked().is_some() {
        let spared = |place: usize, len: usize| {
            let mut spare = spare;
            spare[place] = len;
            Loan { spare, ..exact }
        };
        let whole = spare[0];
        all.extend((0..3).flat_map(|place| [whole - 1, whole + 5, 0].map(|len| spared(place, len))));
        all.push(Loan { spare: [whole - 1; 3], ..exact });
        all.push(Loan { spare: [whole + 1, whole + 7, whole + w], ..exact });
    }
    all
}

/// W at its own bound: output runs of 4,096 and more.
fn wide(case: &Case) -> Vec<Loan> {
    let most = case.loan(MOST_ENTRIES, case.t());
    let longer = Loan { rooms: Rooms { output: [4_097, 5_000, 4_098], ..most.rooms }, ..most };
    let mut all = vec![longer, Loan { rooms: Rooms { index: MOST_ENTRIES - 1, ..longer.rooms }, ..longer }];
    if case.relation.picked().is_some() {
        all.push(Loan { spare: most.spare.map(|len| len - 1), ..longer });
    }
    all
}

fn at_bounds(desk: &mut Desk, tally: &mut Tally, case: &Case) {
    for loan in bounds(case) {
        relate(desk, tally, case, &loan);
    }
}

/// Every list of up to `most` of these numbers.
fn lists<T: Copy>(numbers: &[T], most: usize) -> Vec<Vec<T>> {
    let mut all = vec![Vec::new()];
    let mut from = 0;
    for _ in 0..most {
        let to = all.len();
        for i in from..to {
            let longer = numbers.iter().map(|&number| [&all[i][..], &[number]].concat());
            all.extend(longer.collect::<Vec<_>>());
        }
        from = to;
    }
    all
}

/// Every call on n up to 2: options 0 to 3 and the greatest, lists of up to four of them, values up to 3 and the greatest.
fn every_call(part: Part) -> Vec<Relation> {
    let options = [0, 1, 2, 3, 256, 65_535];
    let both = |call: fn(u16, bool) -> Relation| options.into_iter().flat_map(move |v| [call(v, false), call(v, true)]);
    match part {
        Part::Quantified => options.into_iter().flat_map(|v| [Exists(v), ForAll(v)]).chain(both(Select)).collect(),
        Part::Restricted => {
            let values = lists(&[0, 1, 2, 3], 3).into_iter().chain(lists(&[2, 255], 2));
            values.map(Restrict).chain(both(VarRestrict)).collect()
        }
        Part::Picked => {
            let picks = lists(&[0, 1, 2, 3], 4).into_iter().chain(lists(&[1, 256, 65_535], 3));
            picks.map(Pick).chain(options.into_iter().map(VarPick)).collect()
        }
    }
}

/// All ordered sets with n up to 2 and L up to 4, damaged ones, and every array of small numbers.
fn exhaustive(desk: &mut Desk, tally: &mut Tally, part: Part) {
    let (sets, calls, mut chance) = (small_sets(), every_call(part), Chance::new(21));
    tally.family(part.named("n to 2, L to 4, every call, every boundary"));
    for set in &sets {
        for call in &calls {
            let case = Case::new(set, call);
            at_bounds(desk, tally, &case);
            if chance.once_in(8) {
                wide(&case).iter().for_each(|loan| relate(desk, tally, &case, loan));
            }
        }
    }
    tally.family(part.named("n to 2, L 5, every call"));
    for set in ordered_sets(5).iter().filter(|set| set.len() == 5) {
        for call in &calls {
            let case = Case::new(set, call);
            some_bounds(desk, tally, &mut chance, &case, 2);
        }
    }
    tally.family(part.named("those to L 4, one number changed, lengths"));
    for set in sets.iter().flat_map(|set| [changes(set), unequal(set)].concat()) {
        for _ in 0..4 {
            let case = Case::new(&set, &calls[chance.below(calls.len())]);
            relate(desk, tally, &case, &case.loan(chance.below(5), chance.below(5)));
        }
    }
    tally.family(part.named("every array of numbers to 3, L to 4"));
    (0..=4).for_each(|l| every_array(desk, tally, &calls, l));
    assert!(sets == small_sets(), "a lent set has changed");
}

/// All arrays of l entries with numbers up to 3, the calls in turn: each kind of call on each array.
fn every_array(desk: &mut Desk, tally: &mut Tally, calls: &[Relation], l: usize) {
    let mut kinds: Vec<Vec<&Relation>> = Vec::new();
    for call in calls {
        let same = |kind: &Vec<&Relation>| std::mem::discriminant(kind[0]) == std::mem::discriminant(call);
        match kinds.iter().position(same) {
            Some(place) => kinds[place].push(call),
            None => kinds.push(vec![call]),
        }
    }
    let mut set = Set { variable: vec![0; l], low: vec![0; l], high: vec![0; l] };
    for code in 0..1usize << (6 * l) {
        for i in 0..l {
            let entry = code >> (6 * i) & 63;
            (set.variable[i], set.low[i], set.high[i]) = ((entry >> 4) as u16, entry as u32 >> 2 & 3, entry as u32 & 3);
        }
        for kind in &kinds {
            let case = Case::new(&set, kind[code % kind.len()]);
            relate(desk, tally, &case, &case.loan(code % 3, 1));
        }
    }
}

/// A call of this part at random, over n options; its options and lists are good ones.
fn some_call(chance: &mut Chance, part: Part, n: u16) -> Relation {
    let v = chance.below(n as usize) as u16;
    match (part, chance.below(3)) {
        (Part::Quantified, 0) => Exists(v),
        (Part::Quantified, 1) => ForAll(v),
        (Part::Quantified, _) => Select(v, chance.once_in(2)),
        (Part::Restricted, 0) => VarRestrict(v, chance.once_in(2)),
        (Part::Restricted, _) => {
            let free = chance.one_of(&[2, 5, 40]);
            Restrict((0..n).map(|_| if chance.once_in(free) { chance.below(2) as u8 } else { 2 }).collect())
        }
        (Part::Picked, 0) => VarPick(v),
        (Part::Picked, _) => Pick(some_options(chance, n)),
    }
}

/// Different options in any order: mostly few.
fn some_options(chance: &mut Chance, n: u16) -> Vec<u16> {
    let most = chance.one_of(&[0, 1, 2, 2, 3, 4, 6, 12, 256]).min(n as usize);
    let mut list = Vec::new();
    for _ in 0..most {
        let v = chance.below(n as usize) as u16;
        if !list.contains(&v) {
            list.push(v);
        }
    }
    list
}

/// How large, how many, how many calls of each.
struct Sizes {
    family: &'static str,
    options: &'static [u16],
    most: usize,
    cases: usize,
    calls: usize,
}

const RANDOM: [Sizes; 3] = [
    Sizes {
        family: "at random, n to 8, L to 24",
        options: &[1, 2, 3, 4, 5, 6, 7, 8],
        most: 24,
        cases: 40_000,
        calls: 8,
    },
    Sizes {
        family: "at random, n to 256, L to 600",
        options: &[6, 11, 14, 40, 255, 256],
        most: 600,
        cases: 4_000,
        calls: 6,
    },
    Sizes {
        family: "at random, n to 256, L to 4,096",
        options: &[14, 60, 128, 256],
        most: 4_096,
        cases: 700,
        calls: 5,
    },
];

/// Sets of every kind, restricted ones (low side first) among them; rooms picked from all boundaries.
fn random(desk: &mut Desk, tally: &mut Tally, part: Part) {
    let mut chance = Chance::new(22);
    for Sizes { family, options, most, cases, calls } in RANDOM {
        // Restriction has no pairs and costs little.
        let cases = if part == Part::Restricted { 4 * cases } else { cases };
        tally.family(part.named(family));
        let (mut pairs, mut long, mut longest) = (0, 0, 0);
        for _ in 0..cases {
            let n = chance.one_of(options);
            let set = some_kind(&mut chance, n, most);
            let call = some_call(&mut chance, part, n);
            let case = Case::new(&set, &call);
            some_bounds(desk, tally, &mut chance, &case, calls);
            long += case.steps.iter().any(|step| step.s > MOST_ENTRIES) as usize;
            (pairs, longest) = (pairs.max(case.t()), longest.max(case.made.len()));
        }
        eprintln!("  of {cases} jobs {long} with a step longer than 4,096; T to {pairs}, the longest array {longest}");
    }
}

/// Exact rooms once, then other boundaries by chance.
fn some_bounds(desk: &mut Desk, tally: &mut Tally, chance: &mut Chance, case: &Case, calls: usize) {
    relate(desk, tally, case, &case.exact());
    let all = bounds(case);
    (1..calls).for_each(|_| relate(desk, tally, case, &chance.one_of(&all)));
}

/// Beside `some_set`: long signed sets, in signing order or as a restriction by nothing leaves them.
fn some_kind(chance: &mut Chance, n: u16, most: usize) -> Set {
    let l = 1 + chance.below(most);
    let set = match chance.below(6) {
        0 if n > 128 && l > 300 => signed_of(chance, n, l),
        1 if n > 30 && most > 300 => {
            let m = 2 + chance.below(most / n as usize);
            modular(chance, n, m, true)
        }
        2 if (10..16).contains(&n) && l > 20 => function_of(chance, n as u32, l.min(30 << (n - 10))),
        _ => return some_set(chance, n, l),
    };
    one_array(&set, chance.once_in(2))
}

/// Sets at each bound of n and L, options at both ends and beyond.
fn boundaries(desk: &mut Desk, tally: &mut Tally, part: Part) {
    let mut chance = Chance::new(23);
    tally.family(part.named("n 0, 255 to 257, L 0 to 2, 4,095 to 4,097"));
    for set in boundary_sets(&mut chance) {
        let n = set.variable.first().copied().unwrap_or(0).min(300);
        let mut calls: Vec<Relation> = (0..4).map(|_| some_call(&mut chance, part, n.max(1))).collect();
        let ends = [0, n.max(1) - 1, n, n + 1, 65_535];
        calls.extend(ends.into_iter().flat_map(|v| match part {
            Part::Quantified => [Exists(v), ForAll(v), Select(v, false), Select(v, true)],
            Part::Restricted => [VarRestrict(v, false), VarRestrict(v, true), all_but(n, v, 0), all_but(n, v, 3)],
            Part::Picked => [VarPick(v), Pick(vec![v]), Pick(vec![0, v]), Pick(vec![v, n.max(1) - 1])],
        }));
        if part == Part::Restricted {
            calls.extend([n.max(1) - 1, n + 1, 0].map(|len| Restrict(vec![2; len as usize])));
        }
        for call in calls {
            let case = Case::new(&set, &call);
            match set.len() {
                0..100 => at_bounds(desk, tally, &case),
                _ => some_bounds(desk, tally, &mut chance, &case, 4),
            }
            relate(desk, tally, &case, &chance.one_of(&wide(&case)));
        }
    }
}

/// All free but one value, where that option is there.
fn all_but(n: u16, v: u16, value: u8) -> Relation {
    Restrict((0..n).map(|option| if option == v { value } else { 2 }).collect())
}

/// Refusals 2, 5, 10, 6, 7 and 9 in every combination that a call can have.
fn refusals(desk: &mut Desk, tally: &mut Tally, part: Part, bases: usize) {
    let mut chance = Chance::new(24);
    tally.family(part.named("its refusals in all combinations"));
    for _ in 0..bases {
        let n = 1 + chance.below(6) as u16;
        let set = some_set(&mut chance, n, 14);
        let call = some_call(&mut chance, part, n);
        for mask in 0..64 {
            refused(desk, tally, &mut chance, &set, &call, mask);
        }
    }
}

fn refused(desk: &mut Desk, tally: &mut Tally, chance: &mut Chance, set: &Set, call: &Relation, mask: u32) {
    let bit = |k: u32| mask >> k & 1 == 1;
    let n = set.variable[0];
    let call = spoilt(chance, call, n, bit(0), bit(1));
    let whole = Case::new(set, &call);
    let (s, t) = (whole.s(), whole.t());
    let w = if bit(2) { chance.below(s) } else { s + chance.below(3) };
    let mut loan = whole.loan(w, if bit(3) { chance.below(t) } else { t + chance.below(3) });
    if bit(4) {
        let place = chance.below(4);
        match place {
            0 => loan.rooms.stack = chance.below(2 * n as usize + 1),
            1 if w > 0 => loan.rooms.index = chance.below(w),
            _ if call.restricts() => loan.map = chance.below(set.len()),
            _ if w > 0 => loan.spare[chance.below(3)] = chance.below(loan.spare[0]),
            _ => (),
        }
    }
    if bit(5) {
        let bad = unordered(chance, set);
        return relate(desk, tally, &Case::new(&bad, &call), &loan);
    }
    relate(desk, tally, &whole, &loan);
}

/// With an option of n or more, and with a repeat or a bad value, where the call can have them.
fn spoilt(chance: &mut Chance, call: &Relation, n: u16, beyond: bool, bad: bool) -> Relation {
    let far = chance.one_of(&[n, n + 1, 255, 256, 65_535]).max(n);
    match call.clone() {
        Exists(_) if beyond => Exists(far),
        ForAll(_) if beyond => ForAll(far),
        Select(_, on) if beyond => Select(far, on),
        VarRestrict(_, on) if beyond => VarRestrict(far, on),
        VarPick(_) if beyond => VarPick(far),
        Restrict(mut values) if bad => {
            let place = chance.below(values.len());
            match chance.below(3) {
                0 => values.truncate(place),
                1 => values.push(2),
                _ => values[place] = chance.one_of(&[3, 4, 255]),
            }
            Restrict(values)
        }
        Pick(mut list) => {
            if bad {
                list.push(list.first().copied().unwrap_or(0));
                list.insert(chance.below(list.len()), list[0]);
            }
            if beyond {
                list.insert(chance.below(list.len() + 1), far);
            }
            Pick(list)
        }
        same => same,
    }
}

/// Copies of sets damaged in one number: refused with 2 where that breaks the order, and judged as ever where it does not.
fn damage(desk: &mut Desk, tally: &mut Tally, part: Part, rounds: usize) {
    let mut chance = Chance::new(25);
    tally.family(part.named("sets damaged in one number"));
    for _ in 0..rounds {
        let n = chance.one_of(&[1, 2, 5, 9, 40, 256]);
        let l = 1 + chance.below(60);
        let set = some_set(&mut chance, n, l);
        let bad = damaged(&mut chance, &set);
        let n = ordered(&bad).unwrap_or(n).max(1);
        let call = some_call(&mut chance, part, n);
        let case = Case::new(&bad, &call);
        relate(desk, tally, &case, &case.exact());
    }
}
