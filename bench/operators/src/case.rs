//! One line of a table: some jobs of one kind, and the times of each column in every round.
use crate::calls::{ours, theirs};
use crate::clock::{Clock, Sweep};
use crate::jobs::{EXACT, Job, LARGE, Lent, Made, ROOMS, TWICE};
use crate::limit::limit;
use crate::looks;

/// Pairs, or entries, that one measurement takes at least, so that the clock does not show.
const ENOUGH_PAIRS: usize = 20_000;
const ENOUGH_ENTRIES: usize = 100_000;

/// What is timed; the numbers are rooms.
#[derive(Clone, Copy, Debug, PartialEq)]
pub enum Column {
    Crate,
    Ours(usize),
    /// The filling of what our call clears.
    Clearing(usize),
    Limit(usize),
}

use Column::*;

/// Each call right behind the same one, or behind a sweep of the caches.
#[derive(Clone, Copy)]
pub enum State {
    Warm,
    Cold,
}

/// ns per pair or entry of one column, one for each round.
struct Times {
    column: Column,
    warm: Vec<f64>,
    cold: Vec<f64>,
}

pub struct Case {
    pub what: &'static str,
    pub sets: &'static str,
    pub jobs: Vec<Job>,
    large: Lent,
    times: Vec<Times>,
    is_cold: bool,
}

impl Case {
    /// With every column that there is.
    pub fn new(what: &'static str, sets: &'static str, jobs: Vec<Job>) -> Case {
        let mut case = Case { what, sets, large: Lent::large(&jobs), jobs, times: Vec::new(), is_cold: true };
        let ask = &case.jobs[0].ask;
        let rooms = if ask.works() { EXACT..ROOMS.len() } else { EXACT..EXACT + 1 };
        let mut columns = Vec::new();
        // A call that says no stops elsewhere in the crate.
        if ask.must != Made::Says(false) && theirs(ask) {
            columns.push(Crate);
        }
        columns.extend(rooms.clone().map(Ours));
        if ask.works() {
            columns.extend(rooms.map(Clearing));
        }
        if limit(ask, &mut case.large).is_some() {
            columns.extend([EXACT, TWICE].map(Limit));
        }
        case.keep(&columns);
        case
    }

    /// With these columns alone, and warm: what growth is seen by.
    pub fn of_growth(what: &'static str, sets: &'static str, jobs: Vec<Job>) -> Case {
        let mut case = Case::new(what, sets, jobs);
        case.keep(&[Crate, Ours(EXACT), Ours(TWICE), Limit(EXACT), Limit(TWICE)]);
        case.is_cold = false;
        case
    }

    fn keep(&mut self, columns: &[Column]) {
        self.times =
            columns.iter().map(|column| Times { column: *column, warm: Vec::new(), cold: Vec::new() }).collect();
    }

    /// Every call that will be timed makes what it must, number for number.
    pub fn confirm(&mut self) {
        for Times { column, .. } in &self.times {
            let (Ours(room) | Limit(room)) = *column else { continue };
            for job in &mut self.jobs {
                in_room(&mut job.lent, &mut self.large, room).blot();
                call(job, &mut self.large, *column);
                let lent = in_room(&mut job.lent, &mut self.large, room);
                assert!(lent.holds(&job.ask.must), "{} of {}: {column:?}", self.what, self.sets);
            }
        }
    }

    /// One round: each column over all sets, once before the clock starts, so that none finds the memory as the column before
    /// it left it.
    pub fn measure_warm(&mut self, clock: &Clock) {
        let units: usize = self.jobs.iter().map(|job| job.ask.units).sum();
        let enough = if self.jobs[0].ask.t == 0 { ENOUGH_ENTRIES } else { ENOUGH_PAIRS };
        let times = (enough / units).max(1);
        for Times { column, warm, .. } in &mut self.times {
            let mut all = || self.jobs.iter_mut().for_each(|job| call(job, &mut self.large, *column));
            all();
            let taken = clock.time(|| (0..times).for_each(|_| all()));
            warm.push(taken / (times * units) as f64);
        }
    }

    /// One round: the crate's call and ours on the first sets, each behind a sweep.
    pub fn measure_cold(&mut self, clock: &Clock, sweep: &mut Sweep) {
        let job = &mut self.jobs[0];
        for Times { column, cold, .. } in self.times.iter_mut().filter(|_| self.is_cold) {
            if let Crate | Ours(_) = column {
                sweep.sweep();
                let taken = clock.time(|| call(job, &mut self.large, *column));
                cold.push(taken / job.ask.units as f64);
            }
        }
    }

    fn times(&self, state: State, column: Column) -> Option<&[f64]> {
        let times = self.times.iter().find(|times| times.column == column)?;
        let times = match state {
            State::Warm => &times.warm,
            State::Cold => &times.cold,
        };
        (!times.is_empty()).then_some(times)
    }

    /// The fastest round.
    pub fn best(&self, state: State, column: Column) -> Option<f64> {
        self.times(state, column)?.iter().copied().reduce(f64::min)
    }

    pub fn median(&self, state: State, column: Column) -> Option<f64> {
        Some(median(self.times(state, column)?.to_vec()))
    }

    /// The fastest round to the crate's fastest.
    pub fn ratio(&self, state: State, column: Column) -> Option<f64> {
        Some(self.best(state, column)? / self.best(state, Crate)?)
    }

    /// The median of the rounds' ratios to the crate: within a round the machine's speed is nearly the same.
    pub fn median_ratio(&self, state: State, column: Column) -> Option<f64> {
        let (ours, theirs) = (self.times(state, column)?, self.times(state, Crate)?);
        Some(median(ours.iter().zip(theirs).map(|(ours, theirs)| ours / theirs).collect()))
    }

    /// Places and nodes of the pair run that a search looks at, by the model.
    pub fn looks(&self, room: usize) -> Option<f64> {
        let all: Option<Vec<_>> =
            self.jobs.iter().map(|job| looks::looks(&job.ask, job.lent[room].pairs.len() / 4)).collect();
        let (searches, looks) = all?.iter().fold((0, 0), |sum, one| (sum.0 + one.searches, sum.1 + one.looks));
        (searches > 0).then_some(looks as f64 / searches as f64)
    }

    /// The mean of a number of the jobs.
    pub fn mean(&self, part: fn(&Job) -> usize) -> usize {
        self.jobs.iter().map(part).sum::<usize>() / self.jobs.len()
    }
}

fn median(mut numbers: Vec<f64>) -> f64 {
    numbers.sort_by(f64::total_cmp);
    (numbers[(numbers.len() - 1) / 2] + numbers[numbers.len() / 2]) / 2.0
}

fn in_room<'a>(lent: &'a mut [Lent; LARGE], large: &'a mut Lent, room: usize) -> &'a mut Lent {
    if room == LARGE { large } else { &mut lent[room] }
}

/// One call, whose answer is checked.
fn call(job: &mut Job, large: &mut Lent, column: Column) {
    let Job { ask, lent } = job;
    match column {
        Crate => assert!(theirs(ask)),
        Ours(room) => assert!(ours(ask, in_room(lent, large, room)) == ask.must.number()),
        Clearing(room) => in_room(lent, large, room).clear(ask),
        Limit(room) => assert!(limit(ask, in_room(lent, large, room)) == Some(ask.must.number())),
    }
}
