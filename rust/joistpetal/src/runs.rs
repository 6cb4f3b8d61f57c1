//! The runs that the crate lends, kept from call to call: one [`Runs`] to a thread, since the original's calls have no place
//! to hand one in. What a call left in them never changes an answer, so they are lent as they are.
use crate::ffi::{self, Job, MapWork, Output, PickWork, Set, Work};
use crate::{Bdd, Refusal};
use joistpetal_sys::*;
use std::cell::RefCell;

/// How many times as much is lent where a pair run is more than half full.
const GROWTH: usize = 4;
/// The places of the pair run that are kept between calls at the most: 1 MiB.
const KEPT: usize = 65_536;

pub(crate) struct Runs {
    variable: Vec<u16>,
    low: Vec<u32>,
    high: Vec<u32>,
    index: Vec<u32>,
    stack: Vec<u32>,
    pairs: Vec<u32>,
}

thread_local! {
    static RUNS: RefCell<Runs> = RefCell::new(Runs::new());
}

/// Lends this thread's runs to a job, or new ones while the thread ends and its own are gone. A job calls the library and
/// nothing of the caller's, so the runs are never asked for while they are lent.
pub(crate) fn lend<T>(mut job: impl FnMut(&mut Runs) -> T) -> T {
    RUNS.try_with(|runs| job(&mut runs.borrow_mut()))
        .unwrap_or_else(|_| job(&mut Runs::new()))
}

impl Runs {
    fn new() -> Runs {
        Runs {
            variable: vec![0; MOST_ENTRIES],
            low: vec![0; MOST_ENTRIES],
            high: vec![0; MOST_ENTRIES],
            index: vec![0; MOST_ENTRIES],
            stack: vec![0; stack_len(MOST_OPTIONS)],
            pairs: Vec::new(),
        }
    }

    fn output(&mut self) -> Output<'_> {
        Output {
            variable: &mut self.variable,
            low: &mut self.low,
            high: &mut self.high,
        }
    }

    /// The array that stands at the front of the output.
    fn written(&self, size: usize) -> Bdd {
        Bdd::new(
            &self.variable[..size],
            &self.low[..size],
            &self.high[..size],
        )
    }

    /// A job that is lent the output alone, and answers with the size of what it wrote.
    pub(crate) fn make(
        &mut self,
        job: impl Fn(Output) -> Result<usize, Refusal>,
    ) -> Result<Bdd, Refusal> {
        let size = job(self.output())?;
        Ok(self.written(size))
    }

    /// The reader: a set, and how many bytes of a tail were dropped.
    pub(crate) fn read(&mut self, file: &[u8]) -> Result<(Bdd, usize), Refusal> {
        let (records, tail) = ffi::read_as_bytes(file, self.output())?;
        if records == 0 {
            return Err(Refusal::LEFT_NOT_ORDERED);
        }
        Ok((self.written(records), tail))
    }

    /// An operator.
    pub(crate) fn operate(&mut self, job: &Job) -> Result<Bdd, Refusal> {
        self.operate_by(job, |output, work| ffi::operate(job, output, work))
    }

    /// A call that runs this operator. Its first pair run is often enough; if it is not, the pairs are counted, and it is lent
    /// twice as many places, where searches are somewhat shorter than in a run that it fills.
    pub(crate) fn operate_by(
        &mut self,
        job: &Job,
        call: impl Fn(Output, Work) -> Result<usize, Refusal>,
    ) -> Result<Bdd, Refusal> {
        let most = most_pairs(job);
        let mut answer = self.ask(job.left, first_places(job).min(most), &call);
        if answer == Err(Refusal::PAIR_ROOM) {
            let (_, count) = self.count(&Job {
                limit: NO_LIMIT,
                ..*job
            })?;
            answer = self.ask(job.left, (2 * count).min(most), &call);
        }
        self.give_back();
        Ok(self.written(answer?))
    }

    /// The selection of one option: the literal has three entries, so there are few pairs.
    pub(crate) fn select(&mut self, set: Set, v: u16, value: bool) -> Result<Bdd, Refusal> {
        let places = enough_pairs(set.variable.len(), 3);
        let size = self.ask(set, places, |output, work| {
            ffi::var_select(set, v, value, output, work)
        })?;
        Ok(self.written(size))
    }

    fn ask(
        &mut self,
        set: Set,
        places: usize,
        call: impl Fn(Output, Work) -> Result<usize, Refusal>,
    ) -> Result<usize, Refusal> {
        self.make_room(pairs_len(places));
        let output = Output {
            variable: &mut self.variable,
            low: &mut self.low,
            high: &mut self.high,
        };
        let work = Work {
            pairs: &mut self.pairs[..pairs_len(places)],
            stack: &mut self.stack[..needed_stack(&set)],
            index: &mut self.index,
        };
        call(output, work)
    }

    /// Picking of k options. Its steps are operators on arrays that nobody sees, so after a 7 it is lent more until it is done.
    pub(crate) fn pick(
        &mut self,
        set: Set,
        k: usize,
        call: impl Fn(Output, PickWork) -> Result<usize, Refusal>,
    ) -> Result<Bdd, Refusal> {
        let most = enough_pairs(MOST_ENTRIES, MOST_ENTRIES);
        // A list of more than all options is refused before these are looked at.
        let spare = spare_len(k.min(MOST_OPTIONS), MOST_ENTRIES);
        let (mut variable, mut low, mut high) = (vec![0; spare], vec![0; spare], vec![0; spare]);
        let mut places = 4 * set.variable.len();
        let answer = loop {
            self.make_room(pairs_len(places));
            let output = Output {
                variable: &mut self.variable,
                low: &mut self.low,
                high: &mut self.high,
            };
            let work = PickWork {
                pairs: &mut self.pairs[..pairs_len(places)],
                stack: &mut self.stack[..needed_stack(&set)],
                index: &mut self.index,
                spare_variable: &mut variable,
                spare_low: &mut low,
                spare_high: &mut high,
            };
            match call(output, work) {
                Err(Refusal::PAIR_ROOM) if places < most => places = (GROWTH * places).min(most),
                answer => break answer,
            }
        };
        self.give_back();
        Ok(self.written(answer?))
    }

    /// A restriction. The pair run is lent as the map: there too nothing of an earlier job matters.
    pub(crate) fn restrict(
        &mut self,
        set: Set,
        call: impl Fn(Output, MapWork) -> Result<usize, Refusal>,
    ) -> Result<Bdd, Refusal> {
        let numbers = map_len(set.variable.len());
        self.make_room(numbers);
        let output = Output {
            variable: &mut self.variable,
            low: &mut self.low,
            high: &mut self.high,
        };
        let work = MapWork {
            stack: &mut self.stack[..needed_stack(&set)],
            index: &mut self.index,
            map: &mut self.pairs[..numbers],
        };
        let size = call(output, work)?;
        Ok(self.written(size))
    }

    /// The dry run: "can it hold", and c.
    pub(crate) fn dry_run(&mut self, job: &Job) -> Result<(bool, usize), Refusal> {
        let answer = self.count(job);
        self.give_back();
        answer
    }

    /// Counts with a small pair run, and with four times as much where that is more than half full, up to as many places
    /// as there are pairs, where 7 cannot be.
    fn count(&mut self, job: &Job) -> Result<(bool, usize), Refusal> {
        let most = most_pairs(job);
        let mut places = first_places(job).min(most);
        loop {
            self.make_room(pairs_len(places));
            let limit = if places < most {
                job.limit.min(places / 2)
            } else {
                job.limit
            };
            let pairs = &mut self.pairs[..pairs_len(places)];
            let stack = &mut self.stack[..needed_stack(&job.left)];
            match ffi::dry_run(&Job { limit, ..*job }, pairs, stack) {
                Err(Refusal::OVER_LIMIT) if limit < job.limit => {
                    places = (GROWTH * places).min(most)
                }
                answer => return answer,
            }
        }
    }

    /// How two sets stand to each other, and the left set's value where they differ. The pair run is lent as the room: there
    /// too nothing of an earlier job matters.
    pub(crate) fn compare(
        &mut self,
        left: Set,
        right: Set,
        setting: &mut [u8; SETTING],
    ) -> Result<(u32, bool), Refusal> {
        let numbers = compare_advised_len(left.variable.len(), right.variable.len());
        self.make_room(numbers);
        ffi::same(left, right, setting, &mut self.pairs[..numbers])
    }

    /// The old run is let go first, so that the two are never there together.
    fn make_room(&mut self, numbers: usize) {
        if self.pairs.len() < numbers {
            self.pairs = Vec::new();
            self.pairs = vec![0; numbers];
        }
    }

    fn give_back(&mut self) {
        if self.pairs.len() > pairs_len(KEPT) {
            self.pairs = Vec::new();
        }
    }
}

/// No operator can reach more pairs than there are.
fn most_pairs(job: &Job) -> usize {
    enough_pairs(job.left.variable.len(), job.right.variable.len())
}

/// As many pairs as the two sets have entries fill half of it. That is often enough, and it is cheap to clear.
fn first_places(job: &Job) -> usize {
    2 * (job.left.variable.len() + job.right.variable.len())
}

/// 2n+1. Where n is above its bound the set is refused before the stack is looked at.
fn needed_stack(set: &Set) -> usize {
    stack_len(usize::from(set.variable[0]).min(MOST_OPTIONS))
}

/// What the API never shows, asked below it: 6 and 7, and what is kept.
#[cfg(test)]
mod tests {
    use super::*;
    use crate::{BddVariable, op_function};

    fn literal(v: usize) -> Bdd {
        Bdd::mk_literal(2, BddVariable::from_index(v), true).expect("an option")
    }

    /// Asks an operator with so many numbers of each working run, all of them dirty.
    fn asked(
        left: &Bdd,
        right: &Bdd,
        pairs: usize,
        stack: usize,
        index: usize,
    ) -> Result<usize, Refusal> {
        let table = op_function::answers(op_function::and);
        let (left, right) = (left.set(), right.set());
        let job = Job {
            limit: NO_LIMIT,
            table: &table,
            left,
            right,
            flip_left: NO_FLIP,
            flip_right: NO_FLIP,
            flip_output: NO_FLIP,
        };
        let (mut variable, mut low, mut high) = ([7; 8], [7; 8], [7; 8]);
        let output = Output {
            variable: &mut variable,
            low: &mut low,
            high: &mut high,
        };
        let (mut pairs, mut stack, mut index) = (vec![7; pairs], vec![7; stack], vec![7; index]);
        let work = Work {
            pairs: &mut pairs,
            stack: &mut stack,
            index: &mut index,
        };
        ffi::operate(&job, output, work)
    }

    #[test]
    fn short_runs_are_6_and_few_pairs_7() {
        let (x0, x1) = (literal(0), literal(1));
        // x0 and x1: n = 2, so a stack of 5; T = 2, so eight numbers; W = 8.
        assert_eq!(asked(&x0, &x1, 8, 5, 8), Ok(4));
        assert_eq!(asked(&x0, &x1, 8, 4, 8), Err(Refusal::SHORT_RUN));
        assert_eq!(asked(&x0, &x1, 8, 5, 7), Err(Refusal::SHORT_RUN));
        assert_eq!(asked(&x0, &x1, 7, 5, 8), Err(Refusal::PAIR_ROOM));
        let never = Bdd::mk_false(2).expect("two options");
        assert_eq!(asked(&never, &x0, 0, 5, 8), Err(Refusal::PAIR_ROOM));
        assert_eq!(asked(&never, &x0, 4, 5, 8), Ok(1));
        assert_eq!(
            Refusal::PAIR_ROOM.to_string(),
            "refusal 7: T > R (operators)"
        );
        assert!(
            Refusal::SHORT_RUN
                .to_string()
                .starts_with("refusal 6: stack shorter than 2n+1, index")
        );
    }

    #[test]
    fn a_short_room_is_6_and_a_room_is_cleared() {
        let (x0, x1) = (literal(0), literal(1));
        let least = compare_len(x0.size(), x1.size());
        let mut setting = [7; SETTING];
        let mut short = vec![7; least - 1];
        let refused = ffi::same(x0.set(), x1.set(), &mut setting, &mut short);
        assert_eq!(refused, Err(Refusal::SHORT_RUN));
        assert!(setting.iter().all(|&on| on == 7) && short.iter().all(|&x| x == 7));
        let mut room = vec![7; least];
        let answer = ffi::same(x0.set(), x1.set(), &mut setting, &mut room);
        // First where x1 alone is on.
        assert_eq!(answer, Ok((DIFFER, false)));
        assert_eq!(setting[..3], [0, 1, 0]);
        assert!(room.iter().all(|&x| x == 0));
    }

    #[test]
    fn room_is_made_kept_and_given_back() {
        let mut runs = Runs::new();
        runs.make_room(pairs_len(KEPT));
        runs.make_room(10);
        runs.give_back();
        assert_eq!(runs.pairs.len(), pairs_len(KEPT));
        runs.make_room(pairs_len(KEPT + 1));
        runs.give_back();
        assert_eq!(runs.pairs.len(), 0);
    }
}
