//! The other exported calls: operators by table, number and name, signing order, makers, bytes, tables, functions.
use crate::chance::{Chance, damaged, some_set};
use crate::checks::{boundary_sets, shown, small_sets};
use crate::operators::{Base, bounds, every_table, good_tables, operate_as, pairs_of, some_flips, some_table};
use crate::ours::{self, Desk, Form, Maker, NAMED};
use crate::paper::{self, KEEP, MOST_ENTRIES, MOST_OPTIONS, Set, operator, ordered};
use crate::tally::Tally;
use crate::theirs;
use biodivine_lib_bdd::{Bdd, BddVariable, BddVariableSet, op_function};
use oracle::arrays::{known, number};

fn same<T: PartialEq + std::fmt::Debug>(got: T, want: T) -> Result<(), String> {
    if got == want { Ok(()) } else { Err(format!("{got:?}, not {want:?}")) }
}

/// Every form that can say a job, at boundaries picked by chance.
fn all_forms(desk: &mut Desk, tally: &mut Tally, chance: &mut Chance, p: u8, left: &Set, right: &Set) {
    let table = operator(p);
    for flips in [KEEP, some_flips(chance, left.variable[0])] {
        let base = Base::new(&table, left, right, flips);
        let all = bounds(&base);
        let mut forms = vec![Form::General, Form::Flipped, Form::NumberedFlipped(p), Form::NumberedGeneral(p)];
        if flips == KEEP {
            forms.extend([Form::Plain, Form::Limited, Form::Numbered(p), Form::NumberedLimited(p)]);
            forms.extend(NAMED.contains(&p).then_some(Form::Named(p)));
        }
        for form in forms {
            let limited =
                matches!(form, Form::General | Form::Limited | Form::NumberedLimited(_) | Form::NumberedGeneral(_));
            let (limit, rooms) = chance.one_of(&all);
            operate_as(desk, tally, form, &base, None, &base.exact());
            operate_as(desk, tally, form, &base, limit.filter(|_| limited), &rooms);
        }
    }
}

pub fn forms(desk: &mut Desk, tally: &mut Tally, rounds: usize) {
    let (sets, mut chance, good) = (small_sets(), Chance::new(13), good_tables());
    tally.family("forms by table, number, name: all pairs n to 2, L to 4; 16 operators");
    for (left, right) in pairs_of(&sets) {
        (0..16).for_each(|p| all_forms(desk, tally, &mut chance, p, left, right));
    }
    tally.family("forms by table, number, name: at random, n to 40, L to 60");
    for round in 0..rounds {
        let n = chance.one_of(&[0, 1, 3, 6, 12, 40]);
        let [left, right] = [0, 0].map(|_| some_set(&mut chance, n, 60));
        all_forms(desk, tally, &mut chance, (round % 16) as u8, &left, &right);
        let table = some_table(&mut chance, &good);
        let base = Base::new(&table, &left, &right, KEEP);
        operate_as(desk, tally, Form::Plain, &base, None, &base.exact());
    }
    numbers(desk, tally, &mut chance, &sets);
    refused_forms(desk, tally, &mut chance, &sets);
}

/// Operator numbers of 16 and more: 1, whatever else holds.
fn numbers(desk: &mut Desk, tally: &mut Tally, chance: &mut Chance, sets: &[Set]) {
    tally.family("forms by number: 16 to 255, sets good and damaged");
    for p in 16..=255 {
        for _ in 0..20 {
            let (left, right) = (chance.one_of(sets), chance.one_of(sets));
            let left = damaged(chance, &left);
            let base = Base::new(&[], &left, &right, some_flips(chance, 3));
            let rooms = base.rooms(chance.below(5), chance.below(5));
            for form in
                [Form::Numbered(p), Form::NumberedLimited(p), Form::NumberedFlipped(p), Form::NumberedGeneral(p)]
            {
                operate_as(desk, tally, form, &base, None, &rooms);
            }
        }
    }
}

/// Refusals 2 to 4 of the forms that have no table to lend.
fn refused_forms(desk: &mut Desk, tally: &mut Tally, chance: &mut Chance, sets: &[Set]) {
    tally.family("forms by number and name: sets damaged or over other options");
    for _ in 0..20_000 {
        let p = chance.one_of(&NAMED);
        let (left, right) = (chance.one_of(sets), chance.one_of(sets));
        let left = if chance.once_in(2) { damaged(chance, &left) } else { left };
        let right = if chance.once_in(2) { damaged(chance, &right) } else { right };
        let table = operator(p);
        let base = Base::new(&table, &left, &right, KEEP);
        let rooms = if base.told.is_some() { base.exact() } else { base.rooms(chance.below(5), chance.below(5)) };
        for form in [Form::Numbered(p), Form::Named(p), Form::Plain] {
            operate_as(desk, tally, form, &base, None, &rooms);
        }
    }
}

pub fn signing_order(desk: &mut Desk, tally: &mut Tally, rounds: usize) {
    let (mut chance, and) = (Chance::new(14), operator(8));
    tally.family("signing order of a set: small, at random, at the bounds, damaged");
    let mut all = small_sets();
    all.extend(boundary_sets(&mut chance));
    for _ in 0..rounds {
        let n = chance.one_of(&[1, 4, 9, 40, 256]);
        let most = chance.one_of(&[5, 20, 100, 800]);
        all.push(some_set(&mut chance, n, most));
        all.push(damaged(&mut chance, &all[all.len() - 1]));
    }
    for set in &all {
        let base = Base::new(&and, set, set, KEEP);
        let rooms = if base.told.is_some() { bounds(&base) } else { vec![(None, base.rooms(5, 5))] };
        for (limit, rooms) in rooms {
            if limit.is_none() {
                operate_as(desk, tally, Form::Signing, &base, None, &rooms);
            }
        }
    }
}

/// False, true and literals, in rooms on both sides of what they need.
pub fn makers(desk: &mut Desk, tally: &mut Tally) {
    tally.family("false, true, literals: n and options at every bound, every room");
    for n in (0..=8u16).chain([100, 254, 255, 256, 257, 258, 4096, 65534, 65535]) {
        let mut makers = vec![Maker::False, Maker::True];
        let options = (0..10).chain([n.wrapping_sub(2), n.wrapping_sub(1), n, n.wrapping_add(1), 255, 256, 65535]);
        makers.extend(options.flat_map(|v| [false, true].map(|value| Maker::Literal(v, value))));
        for maker in makers {
            for w in [0, 1, 2, 3, 4, 9] {
                for lengths in [[w, w, w], [w, w + 1, w + 2], [w + 1, w, w + 5], [w + 7, w + 1, w]] {
                    make(desk, tally, n, maker, lengths);
                }
            }
        }
    }
}

fn make(desk: &mut Desk, tally: &mut Tally, n: u16, maker: Maker, lengths: [usize; 3]) {
    let refused = n > MOST_OPTIONS || matches!(maker, Maker::Literal(v, _) if v >= n);
    let made = (!refused).then(|| crates_own(n, maker)).unwrap_or_default();
    let number = if refused { 5 } else { 9 * (made.len() > lengths.into_iter().min().unwrap()) as u32 };
    let answer = desk.maker(n, maker, lengths);
    let outcome = desk.judge_output(answer, number, &made);
    tally.count(outcome, || format!("{maker:?} over {n} into {lengths:?}"));
}

fn crates_own(n: u16, maker: Maker) -> Set {
    let options = BddVariableSet::new_anonymous(n);
    theirs::set(match maker {
        Maker::False => options.mk_false(),
        Maker::True => options.mk_true(),
        Maker::Literal(v, value) => options.mk_literal(BddVariable::from_index(v as usize), value),
    })
}

pub fn bytes(desk: &mut Desk, tally: &mut Tally, rounds: usize) {
    let mut chance = Chance::new(15);
    let mut sets = small_sets();
    sets.extend(boundary_sets(&mut chance));
    for _ in 0..rounds {
        let n = chance.one_of(&[1, 4, 9, 40, 256]);
        let most = chance.one_of(&[3, 5, 20, 100, 800]);
        sets.push(some_set(&mut chance, n, most));
        sets.push(damaged(&mut chance, &sets[sets.len() - 1]));
    }
    tally.family("bytes written: small, at random, at the bounds, damaged; every room");
    for set in &sets {
        let l = set.len();
        for room in [0, 1, 9, (10 * l).saturating_sub(1), 10 * l, 10 * l + 1, 10 * l + 30] {
            write(desk, tally, set, room);
        }
    }
    tally.family("bytes read: files of these sets whole, cut, with tails, any bytes");
    for set in &sets {
        let file = theirs::bdd(set).to_bytes();
        read_at_bounds(desk, tally, &file);
        read_at_bounds(desk, tally, &file[..chance.below(file.len() + 1)]);
        let any: Vec<u8> = (0..chance.below(75)).map(|_| chance.next() as u8).collect();
        read_at_bounds(desk, tally, &[&file[..], &any[..]].concat());
        read_at_bounds(desk, tally, &any);
    }
    tally.family("records of a file: every k");
    for len in 0..64 {
        let file: Vec<u8> = (0..len).map(|i| i as u8).collect();
        for k in (0..9).chain([usize::MAX / 10, usize::MAX / 10 + 1, usize::MAX, 1 << 32, 1 << 63]) {
            let whole = k < len / 10;
            let want = if whole { (10 * k, 10) } else { (0, 0) };
            tally.count(same(ours::record(&file, k), want), || format!("record {k} of {len} bytes"));
        }
    }
}

fn write(desk: &mut Desk, tally: &mut Tally, set: &Set, room: usize) {
    let file = theirs::bdd(set).to_bytes();
    let number = if ordered(set).is_none() { 2 } else { 9 * (file.len() > room) as u32 };
    let want = (number, if number == 0 { file.len() } else { 0 });
    let got = desk.write(set, room);
    let fits = if number == 0 { desk.bytes.made(&file) } else { desk.bytes.kept() };
    let outcome = same(got, want).and(if fits { Ok(()) } else { Err(format!("bytes after {number}")) });
    tally.count(outcome, || format!("written into {room}: {}", shown(set)));
}

fn read_at_bounds(desk: &mut Desk, tally: &mut Tally, file: &[u8]) {
    let k = file.len() / 10;
    let made = theirs::set(Bdd::from_bytes(&mut &*file));
    for lengths in [
        [k; 3],
        [k + 1; 3],
        [k, k + 2, k + 5],
        [k.max(1) - 1; 3],
        [k, k, k.max(1) - 1],
        [k + 3, k.max(1) - 1, k],
        [5000; 3],
    ] {
        let w = lengths.into_iter().min().unwrap().min(MOST_ENTRIES);
        let want = if k > w { (9, 0, 0) } else { (0, k, file.len() % 10) };
        let got = desk.read(file, lengths);
        let fits = if want.0 == 0 { desk.output.made(&made) } else { desk.output.kept() };
        let outcome = same(got, want).and(if fits { Ok(()) } else { Err("output runs".to_string()) });
        tally.count(outcome, || format!("{} bytes read into {lengths:?}", file.len()));
    }
}

pub fn tables(tally: &mut Tally) {
    let mut chance = Chance::new(16);
    tally.family("table check: every table of 0 to 2, larger numbers, other lengths");
    let checked = |tally: &mut Tally, table: &[u8]| {
        tally.count(same(ours::check_table(table), paper::good(table) as u32), || format!("{table:?}"));
    };
    every_table().for_each(|table| checked(tally, &table));
    for table in good_tables() {
        for place in 0..9 {
            (0..=255).for_each(|new| {
                let mut bad = table;
                bad[place] = new;
                checked(tally, &bad);
            });
        }
        let twice = [table, table].concat();
        (0..=18).for_each(|answers| checked(tally, &twice[..answers]));
    }
    tally.family("operator table: every number; named functions: every pair of inputs");
    for p in 0..=255 {
        let was: [u8; 9] = std::array::from_fn(|_| chance.next() as u8);
        let mut table = was;
        let got = ours::operator(p, &mut table);
        let want = if p < 16 { (0, operator(p)) } else { (1, was) };
        tally.count(same((got, table), want), || format!("operator {p}"));
    }
    let crates =
        [op_function::and, op_function::or, op_function::imp, op_function::iff, op_function::xor, op_function::and_not];
    for (place, function) in crates.into_iter().enumerate() {
        for (l, r) in (0..=255).flat_map(|l| (0..=255).map(move |r| (l, r))) {
            let want = number(function(known(l), known(r)));
            tally.count(same(ours::function(place, l, r), want), || format!("{} at {l}, {r}", NAMED[place]));
        }
    }
}
