//! Operators with flips, limits and rooms: arrays, c and S are the crate's, refusals the paper's, read a second time.
use crate::chance::{Chance, Draw, damaged, ordered_set, some_set, unfolded};
use crate::checks::{boundary_sets, shown, small_sets};
use crate::ours::{Desk, Form};
use crate::paper::{self, Flips, Job, KEEP, NO_FLIP, Rooms, Set, operator, ordered};
use crate::tally::Tally;
use crate::theirs::{self, Told};
use biodivine_lib_bdd::Bdd;

/// Pairs up to which the crate is asked; above, only that they do not fit is known.
pub const MOST_PAIRS: usize = 400_000;

/// A job without a limit, and what the crate says of it where it may be asked.
pub struct Base<'a> {
    pub job: Job<'a>,
    pub told: Option<Told>,
    bdds: Option<(Bdd, Bdd)>,
}

impl<'a> Base<'a> {
    pub fn new(table: &'a [u8], left: &'a Set, right: &'a Set, flips: Flips) -> Base<'a> {
        let job = Job { table, left, right, flips, limit: None };
        let bdds = paper::asked(&job).is_ok().then(|| (theirs::bdd(left), theirs::bdd(right)));
        let told = bdds.as_ref().and_then(|(l, r)| theirs::tell(table, l, r, flips, MOST_PAIRS));
        Base { job, told, bdds }
    }

    /// A job that is refused with 1 to 5, of which the crate is not asked.
    pub fn refused(job: Job<'a>) -> Base<'a> {
        Base { job, told: None, bdds: None }
    }

    pub fn n(&self) -> usize {
        self.job.left.variable.first().map_or(0, |&n| n as usize)
    }

    pub fn s(&self) -> usize {
        self.told.as_ref().map_or(3, Told::size)
    }

    pub fn t(&self) -> usize {
        self.told.as_ref().map_or(1, Told::pairs)
    }

    /// Just the room that is needed.
    pub fn exact(&self) -> Rooms {
        self.rooms(self.s(), self.t())
    }

    pub fn rooms(&self, w: usize, r: usize) -> Rooms {
        Rooms { output: [w; 3], pairs: 4 * r, stack: 2 * self.n() + 1, index: w }
    }

    /// Enough room, more of it here and there.
    pub fn roomy(&self, chance: &mut Chance) -> Rooms {
        let Rooms { output, pairs, stack, index } = self.exact();
        let output = output.map(|w| w + chance.below(3));
        let most = output.into_iter().max().unwrap().max(index);
        Rooms { output, pairs: pairs + chance.below(9), stack: stack + chance.below(3), index: most + chance.below(2) }
    }

    /// The crate's limited operator is a text of its own: it must say the same as the plain one.
    pub fn limited_agrees(&self, limit: usize) -> Result<(), String> {
        let (Some(told), Some((l, r))) = (&self.told, &self.bdds) else { return Ok(()) };
        let limited = theirs::limited(limit, self.job.table, l, r, self.job.flips);
        let want = (told.size() <= limit).then_some(&told.array);
        if limited.as_ref() == want { Ok(()) } else { Err(format!("the crate against itself, limit {limit}")) }
    }

    pub fn limited_dry_agrees(&self, limit: usize) -> Result<(), String> {
        let (Some(told), Some((l, r))) = (&self.told, &self.bdds) else { return Ok(()) };
        let limited = theirs::limited_dry(limit, self.job.table, l, r, self.job.flips);
        let want = (told.count <= limit).then_some((told.holds, told.count));
        if limited == want { Ok(()) } else { Err(format!("the crate's dry run against itself, limit {limit}")) }
    }
}

/// One call of the general operator, judged.
pub fn operate(desk: &mut Desk, tally: &mut Tally, base: &Base, limit: Option<usize>, rooms: &Rooms) {
    operate_as(desk, tally, Form::General, base, limit, rooms);
}

/// The same in another form; one that takes an operator's number of 16 or more has no table.
pub fn operate_as(desk: &mut Desk, tally: &mut Tally, form: Form, base: &Base, limit: Option<usize>, rooms: &Rooms) {
    let job = Job { limit, ..base.job };
    let nothing = Set::default();
    let number = match (paper::early(&job, rooms), &base.told) {
        (0, Some(told)) => paper::late(told.pairs(), told.size(), rooms, limit),
        (0, None) if rooms.r() <= MOST_PAIRS => 7,
        (0, None) => panic!("more room than the crate was asked for"),
        (early, _) => early,
    };
    let answer = desk.operate(form, &job, rooms);
    let outcome = desk.judge(answer, number, base.told.as_ref().map_or(&nothing, |told| &told.array));
    tally.count(outcome, || format!("{form:?} {}", case(&job, rooms)));
}

pub fn case(job: &Job, rooms: &Rooms) -> String {
    let Job { table, flips, limit, left, right } = job;
    format!(
        "table {table:?} flips {flips:?} limit {limit:?} {rooms:?}\n  left {}\n  right {}",
        shown(left),
        shown(right)
    )
}

/// The limits that matter, each once.
fn limits(s: usize) -> Vec<Option<usize>> {
    let mut all = vec![0, 1, s - 1, s, s + 1];
    all.sort_unstable();
    all.dedup();
    std::iter::once(None).chain(all.into_iter().map(Some)).collect()
}

/// Limits and rooms on both sides of S, T, 2n + 1 and W, and the refusals against each other.
pub fn bounds(base: &Base) -> Vec<(Option<usize>, Rooms)> {
    let (s, t, n) = (base.s(), base.t(), base.n());
    let mut all = Vec::new();
    let mut add = |limit: Option<usize>, w: usize, r: usize| all.push((limit, base.rooms(w, r)));
    for (w, r) in [(s, t), (s + 2, t + 2), (s - 1, t), (s, t - 1), (s - 1, t - 1), (0, t), (0, 0)] {
        add(None, w, r);
    }
    for (limit, w) in [(0, 0), (0, s), (0, s - 1), (1, 0), (1, 1), (1, s), (s, s - 1), (s, s), (s, s + 1), (s - 1, s)] {
        add(Some(limit), w, t);
    }
    for (limit, w) in [(s - 1, s - 1), (s - 1, s.max(2) - 2), (s + 1, s - 1), (s + 1, s), (usize::MAX - 1, s - 1)] {
        add(Some(limit), w, t);
    }
    // Numbers that would be small if only 32 bits of them were read.
    add(Some(1 << 32), s, t);
    add(Some((1 << 32) + s - 1), s - 1, t);
    for (limit, w, r) in [(s - 1, s, t - 1), (s + 1, s - 1, t - 1), (0, s, 0)] {
        add(Some(limit), w, r);
    }
    let exact = base.exact();
    all.push((None, Rooms { stack: 2 * n, ..exact }));
    all.push((Some(0), Rooms { stack: 0, ..exact }));
    all.push((None, Rooms { index: s - 1, ..exact }));
    all.push((None, Rooms { index: 0, pairs: 0, ..exact }));
    all.push((None, Rooms { index: s - 1, output: [s + 4, s - 1, s + 1], ..exact }));
    all.push((None, Rooms { index: s, output: [s + 4, s + 1, s], ..exact }));
    all.push((None, Rooms { pairs: 4 * t - 1, ..exact }));
    all.push((None, Rooms { pairs: 4 * t + 3, stack: 2 * n + 9, index: s + 5, ..exact }));
    all.push((None, Rooms { output: [4097, 5000, 4096], index: 4095, ..exact }));
    all.push((None, Rooms { output: [4097, 5000, 4098], index: 4096, ..exact }));
    all
}

pub fn all_flips(n: u16) -> Vec<Flips> {
    let one = || (0..n as u32).chain([KEEP[0]]);
    one().flat_map(|a| one().flat_map(move |b| one().map(move |c| [a, b, c]))).collect()
}

pub fn pairs_of(sets: &[Set]) -> impl Iterator<Item = (&Set, &Set)> {
    let same = |left: &Set, right: &Set| left.variable[0] == right.variable[0];
    sets.iter().flat_map(move |left| sets.iter().map(move |right| (left, right))).filter(move |(l, r)| same(l, r))
}

pub fn good_tables() -> Vec<[u8; 9]> {
    every_table().filter(|table| paper::good(table)).collect()
}

pub fn every_table() -> impl Iterator<Item = [u8; 9]> {
    (0..19_683).map(|code: u32| std::array::from_fn(|place| (code / 3u32.pow(place as u32) % 3) as u8))
}

/// Every operator and flip on every pair, with every limit that matters.
pub fn exhaustive(desk: &mut Desk, tally: &mut Tally) {
    let (sets, mut chance) = (small_sets(), Chance::new(3));
    tally.family("operators: all pairs n to 2, L to 4; 16 operators, all flips, limits");
    for table in (0..16).map(operator) {
        for (left, right) in pairs_of(&sets) {
            for flips in all_flips(left.variable[0]) {
                with_limits(desk, tally, &mut chance, &Base::new(&table, left, right, flips));
            }
        }
    }
    tally.family("operators: the same pairs and operators, rooms at every boundary");
    for table in (0..16).map(operator) {
        for (left, right) in pairs_of(&sets) {
            let flips = chance.one_of(&all_flips(left.variable[0]));
            at_bounds(desk, tally, &Base::new(&table, left, right, flips));
        }
    }
    tally.family("operators: the same pairs, all 84 good tables, no flip");
    for (left, right) in pairs_of(&sets) {
        for table in &good_tables() {
            let base = Base::new(table, left, right, KEEP);
            operate(desk, tally, &base, None, &base.roomy(&mut chance));
        }
    }
    tally.family("operators: all pairs n to 2, L to 3; 84 good tables, all flips, limits");
    let few: Vec<Set> = sets.iter().filter(|set| set.len() < 4).cloned().collect();
    for (left, right) in pairs_of(&few) {
        for table in &good_tables() {
            for flips in all_flips(left.variable[0]) {
                with_limits(desk, tally, &mut chance, &Base::new(table, left, right, flips));
            }
        }
    }
    assert!(sets == small_sets(), "a lent set has changed");
}

fn with_limits(desk: &mut Desk, tally: &mut Tally, chance: &mut Chance, base: &Base) {
    for limit in limits(base.s()) {
        operate(desk, tally, base, limit, &base.roomy(chance));
        if let Some(limit) = limit {
            base.limited_agrees(limit).unwrap();
        }
    }
}

fn at_bounds(desk: &mut Desk, tally: &mut Tally, base: &Base) {
    for (limit, rooms) in bounds(base) {
        operate(desk, tally, base, limit, &rooms);
    }
}

/// All tables of nine numbers up to 2, good ones with a number of 3 or more, and tables of other lengths.
pub fn tables(desk: &mut Desk, tally: &mut Tally) {
    let mut chance = Chance::new(4);
    tally.family("operators: every table of 0, 1, 2; larger numbers; other lengths");
    let mut all: Vec<Vec<u8>> = every_table().map(|table| table.to_vec()).collect();
    for table in good_tables() {
        for (place, new) in (0..9).flat_map(|place| [3, 4, 128, 254, 255].map(|new| (place, new))) {
            all.push(table.to_vec());
            all.last_mut().unwrap()[place] = new;
        }
        all.extend((0..9).map(|answers| table[..answers].to_vec()));
        all.extend((1..8).map(|more| [&table[..], &table[..more]].concat()));
        all.push([table, table].concat());
    }
    for table in &all {
        for _ in 0..4 {
            let n = chance.below(5) as u16;
            let (left, right) = (some_set(&mut chance, n, 9), some_set(&mut chance, n, 9));
            let base = Base::new(table, &left, &right, some_flips(&mut chance, n));
            let rooms = if base.told.is_some() {
                base.roomy(&mut chance)
            } else {
                base.rooms(chance.below(5), chance.below(5))
            };
            operate(desk, tally, &base, chance.one_of(&[None, Some(0), Some(1), Some(9)]), &rooms);
        }
    }
}

pub fn some_flips(chance: &mut Chance, n: u16) -> Flips {
    std::array::from_fn(|_| match chance.below(2) {
        0 if n > 0 => chance.below(n as usize) as u32,
        _ => NO_FLIP,
    })
}

/// A flip of n or more: also such as are an option of the set, or none, where only the lower half is looked at.
pub fn flip_beyond(chance: &mut Chance, n: u16) -> u32 {
    let n = n as u32;
    chance.one_of(&[n, n + 1, 65_535, 65_537, 65_536 + n, 1 << 17, 1 << 31, u32::MAX])
}

pub fn some_table(chance: &mut Chance, good: &[[u8; 9]]) -> [u8; 9] {
    if chance.once_in(3) { chance.one_of(good) } else { operator(chance.below(16) as u8) }
}

/// How large, how many, how many calls of each.
struct Sizes {
    family: &'static str,
    options: &'static [u16],
    most: usize,
    bases: usize,
    calls: usize,
}

const RANDOM: [Sizes; 4] = [
    Sizes {
        family: "operators: at random, n to 8, L to 24",
        options: &[0, 1, 2, 3, 4, 5, 6, 7, 8],
        most: 24,
        bases: 60_000,
        calls: 8,
    },
    Sizes {
        family: "operators: at random, n to 40, L to 300",
        options: &[5, 9, 12, 20, 40],
        most: 300,
        bases: 6_000,
        calls: 6,
    },
    Sizes {
        family: "operators: at random, n to 256, L to 1,200",
        options: &[12, 30, 100, 255, 256],
        most: 1_200,
        bases: 3_000,
        calls: 5,
    },
    Sizes {
        family: "operators: at random, n to 256, L to 4,096",
        options: &[14, 60, 128, 256],
        most: 4_096,
        bases: 600,
        calls: 4,
    },
];

/// Signed, low side first, other layouts, merely ordered; rooms and limits picked from all boundaries.
pub fn random(desk: &mut Desk, tally: &mut Tally) {
    let (mut chance, good) = (Chance::new(5), good_tables());
    for Sizes { family, options, most, bases, calls } in RANDOM {
        tally.family(family);
        let (mut most_pairs, mut long) = (0, 0);
        for _ in 0..bases {
            let n = chance.one_of(options);
            let (a, b) = (1 + chance.below(most), 1 + chance.below(most));
            let (left, right) = (some_set(&mut chance, n, a), some_set(&mut chance, n, b));
            let table = some_table(&mut chance, &good);
            let base = Base::new(&table, &left, &right, some_flips(&mut chance, n));
            some_bounds(desk, tally, &mut chance, &base, calls);
            most_pairs = most_pairs.max(base.t());
            long += (base.s() > 4096) as usize;
        }
        eprintln!("  of {bases} jobs {long} with S above 4,096; T to {most_pairs}");
    }
}

/// Exact rooms once, then other boundaries by chance; with too many pairs, some room that cannot hold them.
fn some_bounds(desk: &mut Desk, tally: &mut Tally, chance: &mut Chance, base: &Base, calls: usize) {
    if base.told.is_none() {
        return operate(desk, tally, base, None, &base.rooms(9, chance.below(2000)));
    }
    operate(desk, tally, base, None, &base.exact());
    let all = bounds(base);
    for _ in 1..calls {
        let (limit, rooms) = chance.one_of(&all);
        operate(desk, tally, base, limit, &rooms);
    }
}

/// Sets at each bound of n and L on either side, with a good set or themselves on the other.
pub fn boundaries(desk: &mut Desk, tally: &mut Tally) {
    let (mut chance, and) = (Chance::new(6), operator(8));
    tally.family("operators: sets at n 0, 255, 256, 257, L 0, 1, 2, 4,095 to 4,097");
    let all = boundary_sets(&mut chance);
    for set in &all {
        let n = set.variable.first().copied().unwrap_or(0);
        let other = some_set(&mut chance, n.min(256), 12);
        let table = operator(chance.below(16) as u8);
        for (table, left, right) in [(&table, set, &other), (&table, &other, set), (&and, set, set)] {
            let flips = if ordered(set).is_some() { some_flips(&mut chance, n) } else { KEEP };
            let base = Base::new(table, left, right, if left.len() == right.len() { KEEP } else { flips });
            match base.told {
                Some(_) => at_bounds(desk, tally, &base),
                None => operate(desk, tally, &base, None, &base.rooms(9, 99)),
            }
        }
    }
    tally.family("operators: flips n - 1, n, n + 1, 65,535 and more, at each of three");
    for n in [0, 1, 2, 7, 255, 256] {
        let (left, right) = (some_set(&mut chance, n, 12), some_set(&mut chance, n, 12));
        let small = [(n as u32).max(1) - 1, n as u32, n as u32 + 1];
        for flip in small.into_iter().chain(65_535..=65_538).chain([1 << 17, 1 << 31, u32::MAX]) {
            for place in 0..3 {
                let mut flips = KEEP;
                flips[place] = flip;
                let base = Base::new(&and, &left, &right, flips);
                match base.told {
                    Some(_) => at_bounds(desk, tally, &base),
                    None => operate(desk, tally, &base, None, &base.rooms(9, 99)),
                }
            }
        }
    }
}

/// Refusals 1 to 9 in every combination: a bit of the mask makes one of them hold.
pub fn refusals(desk: &mut Desk, tally: &mut Tally, bases: usize) {
    let (mut chance, good) = (Chance::new(7), good_tables());
    tally.family("operators: refusals 1 to 9, all 512 combinations");
    for _ in 0..bases {
        let n = 1 + chance.below(6) as u16;
        let [left, right] = [0, 0].map(|_| some_set(&mut chance, n, 14));
        let table = some_table(&mut chance, &good);
        let base = Base::new(&table, &left, &right, some_flips(&mut chance, n));
        for mask in 0..512 {
            refused(desk, tally, &mut chance, &base, mask);
        }
    }
}

fn refused(desk: &mut Desk, tally: &mut Tally, chance: &mut Chance, base: &Base, mask: u32) {
    let bit = |k: u32| mask >> (k - 1) & 1 == 1;
    let (n, s, t) = (base.n() as u16, base.s(), base.t());
    let other = if bit(4) { some_set(chance, n + 1, 14) } else { base.job.right.clone() };
    let table = if bit(1) { bad_table(chance, base.job.table) } else { base.job.table.to_vec() };
    let left = if bit(2) { unordered(chance, base.job.left) } else { base.job.left.clone() };
    let right = if bit(3) { unordered(chance, &other) } else { other };
    let mut flips = base.job.flips;
    if bit(5) {
        flips[chance.below(3)] = flip_beyond(chance, n);
    }
    let w = if bit(9) { chance.below(s) } else { s + chance.below(3) };
    let mut rooms = base.rooms(w, if bit(7) { chance.below(t) } else { t + chance.below(3) });
    if bit(6) {
        match chance.below(2) {
            0 if w > 0 => rooms.index = chance.below(w),
            _ => rooms.stack = chance.below(2 * n as usize + 1),
        }
    }
    let limit = if bit(8) { Some(chance.below(s.min(w + 1))) } else { chance.one_of(&[None, Some(s), Some(s + 1)]) };
    // Only 1 to 5 change what is asked; then the crate is not asked again.
    let job = Job { table: &table, left: &left, right: &right, flips, limit: None };
    if mask & 31 == 0 {
        return operate(desk, tally, base, limit, &rooms);
    }
    operate(desk, tally, &Base::refused(job), limit, &rooms);
}

pub fn bad_table(chance: &mut Chance, good: &[u8]) -> Vec<u8> {
    loop {
        let mut table = good.to_vec();
        match chance.below(5) {
            0 => table.truncate(chance.below(9)),
            1 => table.push(0),
            _ => table[chance.below(9)] = chance.one_of(&[0, 1, 2, 3, 255]),
        }
        if !paper::good(&table) {
            return table;
        }
    }
}

pub fn unordered(chance: &mut Chance, set: &Set) -> Set {
    loop {
        let mut bad = damaged(chance, set);
        if chance.once_in(5) {
            bad.low.pop();
        }
        if ordered(&bad).is_none() {
            return bad;
        }
    }
}

/// Two sets that lead to very many pairs, in just the room for them: wide ones, whose array is mostly too long, and
/// copies of one set in which every entry stands many times, whose array is short.
pub fn many_pairs(desk: &mut Desk, tally: &mut Tally, jobs: usize) {
    let mut chance = Chance::new(8);
    tally.family("operators: L to 4,096, 20,000 to 400,000 pairs; R = T, T - 1, 2T");
    let (mut done, mut most_pairs, mut made, mut longest) = (0, 0, 0, 0);
    while done < jobs {
        let n = chance.one_of(&[24, 40, 200]);
        let [left, right] = if done % 4 == 0 {
            [0, 0].map(|_| ordered_set(&mut chance, n, 4_096, Draw::Layered))
        } else {
            let seeds = [0, 0].map(|_| ordered_set(&mut chance, n, 40 << (done % 5), Draw::Layered));
            seeds.map(|seed| unfolded(&mut chance, &seed, 4_096))
        };
        let table = operator(chance.one_of(&[8, 14, 6, 9, 11, 4]));
        let base = Base::new(&table, &left, &right, some_flips(&mut chance, n));
        let Some(told) = base.told.as_ref().filter(|told| told.count > 20_000) else { continue };
        let (s, t) = (told.size(), told.pairs());
        (done, most_pairs) = (done + 1, most_pairs.max(t));
        if s <= 4_096 {
            (made, longest) = (made + 1, longest.max(s));
        }
        for rooms in [base.exact(), base.rooms(s, t - 1), base.rooms(s - 1, 2 * t), base.rooms(s, 2 * t + 1)] {
            operate(desk, tally, &base, None, &rooms);
        }
        operate(desk, tally, &base, Some(s - 1), &base.rooms(s + 1, 2 * t));
    }
    eprintln!("  of {jobs} jobs {made} with S at most 4,096, the longest {longest}; T to {most_pairs}");
}
