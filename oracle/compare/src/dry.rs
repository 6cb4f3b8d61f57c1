//! Dry runs: "can it hold" and c are the crate's; 7 and 8 follow the dry run's own rule.
use crate::chance::{Chance, some_set};
use crate::checks::small_sets;
use crate::operators::{
    Base, MOST_PAIRS, all_flips, bad_table, case, flip_beyond, good_tables, pairs_of, some_flips, some_table, unordered,
};
use crate::ours::Desk;
use crate::paper::{self, Job, KEEP, NO_FLIP, Rooms, operator};
use crate::tally::Tally;

/// One dry run, judged: the answer, both numbers, and the two runs to their ends.
pub fn dry(desk: &mut Desk, tally: &mut Tally, base: &Base, limit: Option<usize>, pairs: usize, stack: usize) {
    let job = Job { limit, ..base.job };
    let number = match (paper::dry_early(&job, stack), &base.told) {
        (0, Some(told)) => paper::dry_late(told.count, pairs / 4, limit),
        (0, None) if pairs / 4 <= MOST_PAIRS && limit.is_none() => 7,
        (0, None) => panic!("more room than the crate was asked for"),
        (early, _) => early,
    };
    let want = match &base.told {
        Some(told) if number == 0 => (0, told.holds as u32, told.count),
        _ => (number, 0, 0),
    };
    let flips = job.flips.iter().any(|&flip| flip != NO_FLIP) || desk.chance.once_in(2);
    let got = desk.dry(flips, &job, pairs, stack);
    let outcome = if got == want { desk.judge_working(number) } else { Err(format!("answered {got:?}, not {want:?}")) };
    tally.count(outcome, || case(&job, &Rooms { output: [0; 3], pairs, stack, index: 0 }));
}

/// Limits and rooms on both sides of c, and of each other.
fn bounds(c: usize) -> Vec<(Option<usize>, usize)> {
    let less = c.saturating_sub(1);
    let mut all = vec![(None, c), (None, less), (None, 0), (None, c + 2)];
    for limit in [0, 1, less, c, c + 1, usize::MAX - 1, 1 << 32] {
        all.extend([0, less, c, c + 1].map(|r| (Some(limit), r)));
    }
    all.sort_unstable();
    all.dedup();
    all
}

fn at_bounds(desk: &mut Desk, tally: &mut Tally, base: &Base) {
    let (c, stack) = (base.told.as_ref().unwrap().count, 2 * base.n() + 1);
    for (limit, r) in bounds(c) {
        dry(desk, tally, base, limit, 4 * r, stack);
    }
    dry(desk, tally, base, None, 4 * c, stack - 1);
    dry(desk, tally, base, Some(0), 0, 0);
    dry(desk, tally, base, None, 4 * c + 3, stack + 5);
    dry(desk, tally, base, None, (4 * c).saturating_sub(1), stack);
}

pub fn exhaustive(desk: &mut Desk, tally: &mut Tally) {
    let sets = small_sets();
    tally.family("dry runs: all pairs n to 2, L to 4; 16 operators, all flips, limits");
    for table in (0..16).map(operator) {
        for (left, right) in pairs_of(&sets) {
            for flips in all_flips(left.variable[0]) {
                with_limits(desk, tally, &Base::new(&table, left, right, flips));
            }
        }
    }
    tally.family("dry runs: the same pairs and operators, no flip, every boundary");
    for table in (0..16).map(operator) {
        for (left, right) in pairs_of(&sets) {
            at_bounds(desk, tally, &Base::new(&table, left, right, KEEP));
        }
    }
    tally.family("dry runs: the same pairs, all 84 good tables, no flip");
    for (left, right) in pairs_of(&sets) {
        for table in &good_tables() {
            with_limits(desk, tally, &Base::new(table, left, right, KEEP));
        }
    }
}

fn with_limits(desk: &mut Desk, tally: &mut Tally, base: &Base) {
    let (c, stack) = (base.told.as_ref().unwrap().count, 2 * base.n() + 1);
    let less = (c > 0).then(|| Some(c - 1));
    for limit in [None, Some(c)].into_iter().chain(less) {
        dry(desk, tally, base, limit, 4 * c, stack);
        if let Some(limit) = limit {
            base.limited_dry_agrees(limit).unwrap();
        }
    }
}

/// Refusals 1 to 8 in every combination.
pub fn refusals(desk: &mut Desk, tally: &mut Tally, bases: usize) {
    let (mut chance, good) = (Chance::new(11), good_tables());
    tally.family("dry runs: refusals 1 to 8, all 256 combinations");
    for _ in 0..bases {
        let n = 1 + chance.below(6) as u16;
        let [left, right] = [0, 0].map(|_| some_set(&mut chance, n, 14));
        let table = some_table(&mut chance, &good);
        let base = Base::new(&table, &left, &right, some_flips(&mut chance, n));
        for mask in 0..256 {
            refused(desk, tally, &mut chance, &base, mask);
        }
    }
}

fn refused(desk: &mut Desk, tally: &mut Tally, chance: &mut Chance, base: &Base, mask: u32) {
    let bit = |k: u32| mask >> (k - 1) & 1 == 1;
    let (n, c) = (base.n() as u16, base.told.as_ref().unwrap().count);
    let other = if bit(4) { some_set(chance, n + 1, 14) } else { base.job.right.clone() };
    let table = if bit(1) { bad_table(chance, base.job.table) } else { base.job.table.to_vec() };
    let left = if bit(2) { unordered(chance, base.job.left) } else { base.job.left.clone() };
    let right = if bit(3) { unordered(chance, &other) } else { other };
    let mut flips = base.job.flips;
    if bit(5) {
        flips[chance.below(3)] = flip_beyond(chance, n);
    }
    let stack = if bit(6) { chance.below(2 * n as usize + 1) } else { 2 * n as usize + 1 + chance.below(3) };
    let r = if bit(7) { chance.below(c) } else { c + chance.below(3) };
    let limit = if bit(8) { Some(chance.below(c.min(r + 1))) } else { chance.one_of(&[None, Some(c), Some(c + 1)]) };
    let job = Job { table: &table, left: &left, right: &right, flips, limit: None };
    if mask & 31 == 0 {
        return dry(desk, tally, base, limit, 4 * r, stack);
    }
    dry(desk, tally, &Base::refused(job), limit, 4 * r, stack);
}

/// Every boundary of jobs at random.
pub fn random(desk: &mut Desk, tally: &mut Tally) {
    let (mut chance, good) = (Chance::new(12), good_tables());
    let sizes: [(&str, &[u16], usize, usize); 3] = [
        ("dry runs: at random, n to 8, L to 24, every boundary", &[0, 1, 2, 3, 4, 5, 6, 7, 8], 24, 15_000),
        ("dry runs: at random, n to 256, L to 300, every boundary", &[5, 12, 40, 255, 256], 300, 2_000),
        ("dry runs: at random, n to 256, L to 4,096, every boundary", &[14, 60, 128, 256], 4_096, 100),
    ];
    for (family, options, most, bases) in sizes {
        tally.family(family);
        for _ in 0..bases {
            let n = chance.one_of(options);
            let (a, b) = (1 + chance.below(most), 1 + chance.below(most));
            let (left, right) = (some_set(&mut chance, n, a), some_set(&mut chance, n, b));
            let table = some_table(&mut chance, &good);
            let base = Base::new(&table, &left, &right, some_flips(&mut chance, n));
            if base.told.is_some() {
                at_bounds(desk, tally, &base);
            }
        }
    }
}
