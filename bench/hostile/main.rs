//! The time a pair, or an entry, of sets that are shaped against the library's maps, beside usual sets of the same shape.
//! Links the archive of the library; see README.md. Nothing of the gate depends on it.
mod shapes;

use joistpetal_sys::{
    AND, DIFFER, FREE, MOST_ENTRIES, MOST_OPTIONS, NO_FLIP, NO_LIMIT, SAME_MEANING, SETTING, TABLE_ANSWERS,
    compare_advised_len, compare_len, jp_check_binary_op, jp_check_tidy, jp_numbered_flip_op, jp_operator, jp_restrict,
    jp_same, pairs_len, stack_len,
};
use shapes::Choice::{self, *};
use shapes::{
    COPIED, FULL, Key, Set, Shape, TRIES, copies_sets, fold, fold_links, leaves_set, places, repeated, tidy_set,
    tidy_sets,
};
use std::collections::HashMap;
use std::hint::black_box;
use std::time::Instant;

const ROUNDS: usize = 100;
/// Pairs or entries that one measurement takes at least, so that the clock does not show.
const ENOUGH: usize = 20_000;
/// Different sets of each kind, so that no one set is learnt by heart by the machine.
const SETS: usize = 3;

/// A map in a simulation, which counts the nodes that searches meet.
struct Map {
    full: usize,
    tries: usize,
    chains: Vec<Vec<Key>>,
    searches: usize,
    looks: usize,
}

impl Map {
    /// Whether the key stands; where it does not, it is added.
    fn search(&mut self, key: Key) -> bool {
        let room = self.chains.len();
        self.searches += 1;
        let mut place = 0;
        for (tried, turn) in places(key, room).take(self.tries).enumerate() {
            // With one key to a place the next place is the neighbour.
            place = if self.full == 1 && 0 < tried { (place + 1) % room } else { turn };
            let chain = &self.chains[place];
            if let Some(newer) = chain.iter().rev().position(|k| *k == key) {
                self.looks += newer + 1;
                return true;
            }
            self.looks += chain.len();
            if chain.len() < self.full {
                break;
            }
        }
        self.chains[place].push(key);
        false
    }
}

/// What a call searches for in a map, in the library's order; answers what the call is to answer.
type Simulation = fn(&[Set], &mut Map) -> usize;

/// Nodes that a search meets on average, in a map that so many keys fit, with a place for each, as in crates/pair_run and
/// crates/index_run: in the library's map, in chains without a limit, and with linear probing.
fn looks(room: usize, sets: &[Set], simulation: Simulation) -> ([f64; 3], usize) {
    let mut expected = 0;
    let kinds = [(FULL, TRIES), (usize::MAX, 1), (1, room)];
    let looks = kinds.map(|(full, tries)| {
        let mut map = Map { full, tries, chains: vec![Vec::new(); room], searches: 0, looks: 0 };
        expected = simulation(sets, &mut map);
        map.looks as f64 / map.searches as f64
    });
    (looks, expected)
}

fn root(sets: &[Set]) -> Key {
    (sets[0].len() as u32 - 1, sets[1].len() as u32 - 1)
}

/// The undecided children of a pair, low before high. Both sets ask the same option at every pair, and come to the terminals
/// together.
fn children(sets: &[Set], (x, y): Key) -> impl DoubleEndedIterator<Item = Key> {
    let (a, b, x, y) = (&sets[0], &sets[1], x as usize, y as usize);
    [(a.low[x], b.low[y]), (a.high[x], b.high[y])].into_iter().filter(|key| 1 < key.0)
}

/// An operator, depth first, high before low: each undecided child of an open pair is searched for once, as its turn comes.
/// Answers how many pairs.
fn operated(sets: &[Set], map: &mut Map) -> usize {
    let (mut count, mut waiting) = (0, vec![root(sets)]);
    while let Some(key) = waiting.pop() {
        if !map.search(key) {
            count += 1;
            waiting.extend(children(sets, key));
        }
    }
    count
}

/// A dry run: the noted pairs are the queue, and both children of each are searched for, high before low. Answers how many.
fn counted(sets: &[Set], map: &mut Map) -> usize {
    let (mut noted, mut done) = (vec![root(sets)], 0);
    map.search(noted[0]);
    while done < noted.len() {
        noted.extend(children(sets, noted[done]).rev().filter(|key| !map.search(*key)));
        done += 1;
    }
    noted.len()
}

/// The numbers of entries by what they are, each searched for as a key of its option and its links' numbers; answers those of
/// the roots, and the next one.
fn numbered(sets: &[Set], map: &mut Map, key: fn(u16, u32, u32) -> Key) -> (Vec<u32>, u32) {
    let (mut roots, mut numbers) = (Vec::new(), HashMap::new());
    for set in sets {
        let mut made = vec![0, 1];
        for i in 2..set.len() {
            let [low, high] = [set.low[i], set.high[i]].map(|link| made[link as usize]);
            let (key, next) = (key(set.variable[i], low, high), numbers.len() as u32 + 2);
            made.push(if low == high { low } else { *numbers.entry(key).or_insert(next) });
            _ = low == high || map.search(key);
        }
        roots.extend(made.last());
    }
    (roots, numbers.len() as u32 + 2)
}

/// The tidy check, or a restriction with nothing fixed of a set in its order; answers the size of the array.
fn restricted(sets: &[Set], map: &mut Map) -> usize {
    numbered(sets, map, |variable, low, high| (fold(variable as usize, low), high)).1 as usize
}

/// A comparison; answers how the sets stand to each other.
fn compared(sets: &[Set], map: &mut Map) -> usize {
    let (roots, _) = numbered(sets, map, |variable, low, high| (variable as u32, fold_links(low, high)));
    (if roots[0] == roots[1] { SAME_MEANING } else { DIFFER }) as usize
}

/// One set or two, the map that they are shaped against, and what the call is to answer.
struct Job {
    sets: Vec<Set>,
    room: usize,
    expected: usize,
}

/// All that is lent, as long as any job needs it.
struct Lent {
    variable: Vec<u16>,
    runs: [Vec<u32>; 6],
}

/// A call that is measured, whose answer is checked; and what it searches for.
type Call = (fn(&Job, &mut Lent), Simulation);

/// A call: what comes before the sets, the sets, what comes behind them, the runs, and numbers to be told.
macro_rules! call {
    ($name:ident($($head:expr),*), [$($set:expr),*], [$($asked:expr),*], [$($run:expr),*], [$($told:expr),*]) => {
        unsafe { $name(
            $($head,)*
            $($set.variable.as_ptr(), $set.len(), $set.low.as_ptr(), $set.len(), $set.high.as_ptr(), $set.len(),)*
            $($asked,)*
            $($run.as_mut_ptr(), $run.len(),)*
            $($told),*
        ) }
    };
}

fn operator(job: &Job, lent: &mut Lent) {
    // Every pair becomes the one entry that all chosen ones are.
    let mut size = 3;
    let (a, b, [l, h, index, _, stack, pairs]) = (&job.sets[0], &job.sets[1], &mut lent.runs);
    let (v, l, h, index) = (&mut lent.variable[..size], &mut l[..size], &mut h[..size], &mut index[..size]);
    let (stack, pairs) = (&mut stack[..stack_len(a.options())], &mut pairs[..pairs_len(job.room)]);
    let keep = NO_FLIP;
    let answer =
        call!(jp_numbered_flip_op(AND), [a, b], [keep, keep, keep], [v, l, h, pairs, stack, index], [&mut size]);
    assert!(black_box((answer, size)) == (0, 3));
}

fn dry_run(job: &Job, lent: &mut Lent) {
    let (mut table, mut holds, mut count) = ([0; TABLE_ANSWERS], 0, 0);
    let (a, b, [.., stack, pairs]) = (&job.sets[0], &job.sets[1], &mut lent.runs);
    let (stack, pairs) = (&mut stack[..stack_len(a.options())], &mut pairs[..pairs_len(job.room)]);
    unsafe { jp_operator(AND, &mut table) };
    let (table, len) = (table.as_ptr(), table.len());
    let answer = call!(jp_check_binary_op(NO_LIMIT, table, len), [a, b], [], [pairs, stack], [&mut holds, &mut count]);
    assert!(black_box((answer, holds, count)) == (0, 1, job.expected));
}

fn tidy_check(job: &Job, _: &mut Lent) {
    let answer = call!(jp_check_tidy(), [job.sets[0]], [], [], []);
    assert!(black_box(answer) == MOST_OPTIONS as u32 + 1);
}

fn restriction(job: &Job, lent: &mut Lent) {
    let (mut size, free) = (0, [FREE; MOST_OPTIONS]);
    let (set, v, [l, h, index, map, stack, _]) = (&job.sets[0], &mut lent.variable, &mut lent.runs);
    let answer = call!(jp_restrict(), [set], [free.as_ptr(), free.len()], [v, l, h, stack, index, map], [&mut size]);
    assert!(black_box((answer, size)) == (0, job.expected));
}

fn comparison(job: &Job, lent: &mut Lent) {
    let (a, b, mut setting, mut standing, mut left) = (&job.sets[0], &job.sets[1], [0; SETTING], 0, 0);
    let room = &mut lent.runs[5][..a.len() + b.len() + pairs_len(job.room)];
    let answer = call!(jp_same(), [a, b], [&mut setting], [room], [&mut standing, &mut left]);
    assert!(black_box((answer, standing)) == (0, job.expected as u32));
}

/// Sets of one kind, the calls on them, and the ns a pair or an entry of the fastest round of each.
struct Row {
    shape: &'static str,
    kind: &'static str,
    units: usize,
    jobs: Vec<Job>,
    calls: &'static [Call],
    looks: Vec<[f64; 3]>,
    best: [f64; 2],
}

impl Row {
    fn measure(&mut self, lent: &mut Lent) {
        let times = ENOUGH / (SETS * self.units) + 1;
        for ((call, _), best) in self.calls.iter().zip(&mut self.best) {
            // Once before the clock starts, so that none finds the memory as the one before it left it.
            self.jobs.iter().for_each(|job| call(job, lent));
            let began = Instant::now();
            (0..times).for_each(|_| self.jobs.iter().for_each(|job| call(job, lent)));
            *best = best.min(began.elapsed().as_nanos() as f64 / (times * SETS * self.units) as f64);
        }
    }
}

/// One row for each kind of sets, the usual first.
fn rows(
    shape: &'static str,
    calls: &'static [Call],
    room: usize,
    kinds: &[(&'static str, Choice)],
    make: impl Fn(&Choice, usize, usize) -> Vec<Set>,
) -> Vec<Row> {
    let row = |(kind, choice): &(&'static str, Choice)| {
        let job = |seed| {
            let sets = make(choice, room, seed);
            let expected = looks(room, &sets, calls[0].1).1;
            Job { sets, room, expected }
        };
        let jobs = Vec::from_iter((0..SETS).map(job));
        let (job, mut simulated) = (&jobs[0], Vec::new());
        for (_, simulation) in calls {
            let (met, expected) = looks(room, &job.sets, *simulation);
            assert!(expected == job.expected);
            simulated.push(met);
        }
        // An operator and its dry run go by pairs, all else by entries.
        let units = if calls.len() == 2 { job.expected } else { job.sets.iter().map(Set::len).sum() };
        Row { shape, kind, units, jobs, calls, looks: simulated, best: [f64::MAX; 2] }
    };
    kinds.iter().map(row).collect()
}

/// The number of full chains that makes the most looks for the operator.
fn worst(shape: &Shape, room: usize) -> Choice {
    let met = |choice: &Choice| looks(room, &shape.sets(choice, room, 0), operated).0[0];
    let tried = [128, 64, 32, 16].map(|share| FullChains(shape.pairs() / share));
    tried.into_iter().max_by(|a, b| met(a).total_cmp(&met(b))).unwrap()
}

/// All that is measured, in groups whose first row is of ordinary sets.
fn groups() -> Vec<Vec<Row>> {
    let mut groups = Vec::new();
    const OPERATORS: &[Call] = &[(operator, operated), (dry_run, counted)];
    for (levels, times) in [8, 9, 10, 11].into_iter().flat_map(|levels| [(levels, 1), (levels, 2)]) {
        let tree = Shape::tree(levels);
        let room = times * tree.pairs();
        let kinds = [("usual", Usual), ("one place", OnePlace), ("full chains", worst(&tree, room))];
        let mut group = rows("tree", OPERATORS, room, &kinds, |choice, room, seed| tree.sets(choice, room, seed));
        if levels == 10 {
            // About as many pairs.
            let long = Shape::rows();
            let room = times * long.pairs();
            let kinds = [("usual", Usual), ("far pair", Far(vec![(7, 9)]))];
            group.extend(rows("rows", OPERATORS, room, &kinds, |choice, room, seed| long.sets(choice, room, seed)));
        }
        groups.push(group);
    }
    const TIDY: &[Call] = &[(tidy_check, restricted)];
    let kinds = [("usual", Usual), ("one place", OnePlace), ("full chains", FullChains(128))];
    groups.push(rows("tidy check", TIDY, 2 * MOST_ENTRIES, &kinds, tidy_set));
    const RESTRICTION: &[Call] = &[(restriction, restricted)];
    let (once, again) = (leaves_set::<false>, leaves_set::<true>);
    let mut group = rows("restriction", RESTRICTION, MOST_ENTRIES, &kinds, once);
    let kinds = [("usual", Usual), ("far entries", Far(repeated().to_vec()))];
    group.extend(rows("restriction, repeats", RESTRICTION, MOST_ENTRIES, &kinds, again));
    groups.push(group);
    const COMPARISON: &[Call] = &[(comparison, compared)];
    let kinds = [("usual", Usual), ("far entry", Far(vec![COPIED]))];
    for len in [compare_len(MOST_ENTRIES, MOST_ENTRIES), compare_advised_len(MOST_ENTRIES, MOST_ENTRIES)] {
        let room = (len - 2 * MOST_ENTRIES) / 4;
        let mut group = rows("comparison", COMPARISON, room, &kinds[..1], tidy_sets);
        group.extend(rows("comparison, repeats", COMPARISON, room, &kinds, copies_sets));
        groups.push(group);
    }
    groups
}

fn main() {
    let mut groups = groups();
    let large = compare_advised_len(MOST_ENTRIES, MOST_ENTRIES);
    let lengths = [MOST_ENTRIES, MOST_ENTRIES, MOST_ENTRIES, MOST_ENTRIES, stack_len(MOST_OPTIONS), large];
    let mut lent = Lent { variable: vec![0; MOST_ENTRIES], runs: lengths.map(|len| vec![0; len]) };
    // Every case in every round: other load of the machine falls on all alike.
    (0..ROUNDS).for_each(|_| groups.iter_mut().flatten().for_each(|row| row.measure(&mut lent)));
    println!("{:46} {:^26} {:^21} {:^30}", "", "looks a search", "call", "dry run");
    print!("{:20} {:11} {:>6} {:>6}", "shape", "sets", "units", "room");
    let times = format!(" {:>7} {:>6} {:>6}", "ns", "shape", "all");
    println!(" {:>8} {:>8} {:>8}{times} {:>8}{times}", "ours", "plain", "probing", "looks");
    let mut greatest = [0.0_f64; 2];
    for group in &groups {
        let mut usual = &group[0];
        for row in group {
            usual = if row.kind == "usual" { row } else { usual };
            print!("{:20} {:11} {:>6} {:>6}", row.shape, row.kind, row.units, row.jobs[0].room);
            for (call, met) in row.looks.iter().enumerate() {
                // Of a dry run the library's map alone.
                met[..if call == 0 { 3 } else { 1 }].iter().for_each(|looks| print!(" {looks:>8.1}"));
                let ratios = [usual, &group[0]].map(|to| row.best[call] / to.best[call]);
                print!(" {:>7.1} {:>6.2} {:>6.2}", row.best[call], ratios[0], ratios[1]);
                greatest = [0, 1].map(|i| greatest[i].max(ratios[i]));
            }
            println!();
        }
    }
    println!("greatest ratio: {:.2} to usual sets of the same shape, {:.2} to ordinary sets", greatest[0], greatest[1]);
}
