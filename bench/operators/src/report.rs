//! What is printed of the cases.
use crate::case::{Case, Column, Column::*, State, State::*};
use crate::jobs::{EXACT, ROOMS, TWICE, What};
use crate::sets::doubled;
use crate::table::{Cell, count, number, print, with_commas, word};

/// A check may take at most so many times as long for twice the entries.
const MOST_GROWTH: f64 = 2.3;

/// The call, its sets and their sizes.
fn named(case: &Case) -> Vec<Cell> {
    vec![
        word("what", case.what),
        word("sets", case.sets),
        count("L", case.mean(|job| (job.ask.sets[0].len() + job.ask.sets[1].len()) / 2)),
        count("T", case.mean(|job| job.ask.t)),
        count("S", case.mean(|job| job.ask.s)),
    ]
}

/// A column for each of some rooms.
fn rooms(above: &'static str, of: &[usize], value: impl Fn(usize) -> Option<f64>) -> Vec<Cell> {
    of.iter().map(|room| number(above, ROOMS[*room], value(*room))).collect()
}

const ALL: [usize; 4] = [0, 1, 2, 3];
const TWO: [usize; 2] = [EXACT, TWICE];

/// The crate's fastest round, ours in each room, and the ratios.
fn times(case: &Case, state: State) -> Vec<Cell> {
    let mut cells = named(case);
    cells.push(number("crate", "ns", case.best(state, Crate)));
    cells.extend(rooms("ours, ns", &ALL, |room| case.best(state, Ours(room))));
    cells.extend(rooms("ratio", &ALL, |room| case.ratio(state, Ours(room))));
    cells.extend(rooms("median ratio", &ALL, |room| case.median_ratio(state, Ours(room))));
    cells
}

fn warm(case: &Case) -> Vec<Cell> {
    let mut cells = times(case, Warm);
    cells.extend(rooms("limit's ratio", &TWO, |room| case.ratio(Warm, Limit(room))));
    cells.extend(rooms("clearing alone, ratio", &ALL, |room| case.ratio(Warm, Clearing(room))));
    cells.extend(rooms("looks a search", &TWO, |room| case.looks(room)));
    cells
}

/// The two tables of calls that work in rooms.
pub fn rooms_tables(name: &str, cases: &[Case]) {
    print(&format!("{name}, warm"), &cases.iter().map(warm).collect::<Vec<_>>());
    print(&format!("{name}, cold"), &cases.iter().map(|case| times(case, Cold)).collect::<Vec<_>>());
}

/// The table of calls that are lent no working runs: warm and cold side by side.
pub fn plain_table(name: &str, cases: &[Case]) {
    let line = |case: &Case| {
        let mut cells = named(case);
        for (above, state) in [("warm", Warm), ("cold", Cold)] {
            cells.extend([
                number(above, "crate, ns", case.best(state, Crate)),
                number(above, "ours, ns", case.best(state, Ours(EXACT))),
                number(above, "ratio", case.ratio(state, Ours(EXACT))),
                number(above, "median ratio", case.median_ratio(state, Ours(EXACT))),
            ]);
        }
        cells
    };
    print(name, &cases.iter().map(line).collect::<Vec<_>>());
}

/// ns a pair against the number of pairs, and as many times those of the first line of the same call.
pub fn growth(cases: &[Case]) {
    let line = |case: &Case| {
        let first = cases.iter().find(|first| first.what == case.what).unwrap();
        let best = |column: Column| case.best(Warm, column);
        let grown = |column: Column| Some(best(column)? / first.best(Warm, column)?);
        let mut cells = named(case);
        cells.push(number("crate", "ns", best(Crate)));
        cells.extend(rooms("ours, ns", &TWO, |room| best(Ours(room))));
        cells.extend(rooms("limit, ns", &TWO, |room| best(Limit(room))));
        cells.extend(rooms("ratio", &TWO, |room| case.ratio(Warm, Ours(room))));
        cells.push(number("to the first", "crate", grown(Crate)));
        cells.extend(rooms("to the first", &TWO, |room| grown(Ours(room))));
        cells
    };
    print("Growth by the number of pairs, warm", &cases.iter().map(line).collect::<Vec<_>>());
}

/// How the whole time of a call grows from half the entries; whether that of every check stays within what is allowed.
pub fn doubling(cases: &[Case]) -> bool {
    let mut greatest: f64 = 0.0;
    let mut lines = Vec::new();
    let alike = |a: &Case, b: &Case| a.what == b.what && a.sets == b.sets;
    for cases in cases.chunk_by(alike) {
        let of_size = |l: usize| cases.iter().find(|case| case.mean(|job| job.ask.sets[0].len()) == l);
        let grown = |l: usize, column: Column| {
            Some(2.0 * of_size(l)?.median(Warm, column)? / of_size(l / 2)?.median(Warm, column)?)
        };
        let doubled = &doubled()[1..];
        if doubled.iter().any(|l| grown(*l, Ours(EXACT)).is_none()) {
            continue;
        }
        let mut line = vec![word("what", cases[0].what), word("sets", cases[0].sets)];
        for (above, column) in [("ours, to L", Ours(EXACT)), ("crate, to L", Crate)] {
            line.extend(doubled.iter().map(|l| number(above, &with_commas(*l), grown(*l, column))));
        }
        if let What::Check(_) = cases[0].jobs[0].ask.what {
            greatest = doubled.iter().filter_map(|l| grown(*l, Ours(EXACT))).fold(greatest, f64::max);
        }
        lines.push(line);
    }
    print("Growth of the whole time from half the entries, warm", &lines);
    if greatest > 0.0 {
        println!("\ngreatest growth of a check at a doubling: {greatest:.2} (at most {MOST_GROWTH})");
    }
    greatest <= MOST_GROWTH
}
