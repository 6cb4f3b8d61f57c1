//! What is measured: a call on its sets, what must come of it, and what it is lent in each room.
use biodivine_lib_bdd::{Bdd, BddPartialValuation, BddVariable};
use compare::meaning::Relation;
use compare::paper::{self, KEEP, MOST_ENTRIES, NO_FLIP, Set, operator};
use compare::theirs::{self, Told};
use joistpetal_sys::{file_len, index_len, pairs_len, spare_len, stack_len};
use std::hint::black_box;

/// Just what is needed, so much that nine tenths are used, twice as much, and large runs whatever is needed.
pub const ROOMS: [&str; 4] = ["exact", "10/9", "twice", "large"];
pub const EXACT: usize = 0;
pub const TWICE: usize = 2;
pub const LARGE: usize = 3;
/// Pairs in the large pair run: 4 MiB.
const LARGE_PAIRS: usize = 1 << 18;

/// The checks by their places, as document 01 has them: ordered, tidy, signing order.
pub const CHECKS: [fn(&Set) -> bool; 3] = [|set| paper::ordered(set).is_some(), paper::tidy, paper::signing];

/// An operator goes by its number, on the set and itself flipped at an option where one is named.
#[derive(Clone)]
pub enum What {
    Operator(u8, Option<u16>),
    Dry(u8),
    Related(Relation),
    Not,
    Check(usize),
    Write,
    Read,
}

use What::*;

/// What a call makes.
#[derive(Debug, PartialEq)]
pub enum Made {
    Array(Set),
    /// Whether it can hold, and how many pairs.
    Pairs(bool, usize),
    Bytes(Vec<u8>),
    Says(bool),
}

impl Made {
    /// The number by which a call that is timed is checked.
    pub fn number(&self) -> usize {
        match self {
            Made::Array(set) => set.len(),
            Made::Pairs(holds, count) => 2 * count + *holds as usize,
            Made::Bytes(bytes) => bytes.len(),
            Made::Says(yes) => *yes as usize,
        }
    }
}

pub struct Ask {
    pub what: What,
    pub sets: [Set; 2],
    /// The sets and lists as the crate has them, and the left set's bytes.
    pub bdds: [Bdd; 2],
    pub values: BddPartialValuation,
    pub options: Vec<BddVariable>,
    pub file: Vec<u8>,
    pub must: Made,
    /// What a time is divided by: pairs of all steps, or entries of the set.
    pub units: usize,
    /// T and S by the crate, of the steps that ask for most; 0 where there are no pairs, or no array.
    pub t: usize,
    pub s: usize,
}

pub fn variable(v: u16) -> BddVariable {
    BddVariable::from_index(v as usize)
}

impl Ask {
    fn new(what: What, sets: [Set; 2]) -> Ask {
        let bdds = [theirs::bdd(&sets[0]), theirs::bdd(&sets[1])];
        let (must, steps) = told(&what, &sets, &bdds);
        let (t, s) = steps.iter().fold((0, 0), |(t, s), step| (t.max(step.0), s.max(step.1)));
        let units = if t == 0 { sets[0].len() } else { steps.iter().map(|step| step.0).sum() };
        let (mut values, mut options) = (BddPartialValuation::empty(), Vec::new());
        match &what {
            Related(Relation::Restrict(list)) => {
                let fixed = (0..).zip(list).filter(|(_, value)| **value < 2);
                fixed.for_each(|(v, value)| values.set_value(variable(v), *value == 1));
            }
            Related(Relation::Pick(list)) => options = list.iter().map(|v| variable(*v)).collect(),
            _ => (),
        }
        let file = bdds[0].to_bytes();
        Ask { what, sets, bdds, values, options, file, must, units, t, s }
    }

    pub fn restricts(&self) -> bool {
        matches!(self.what, Related(Relation::Restrict(_)))
    }

    /// Whether it is lent working runs, so that their size matters.
    pub fn works(&self) -> bool {
        self.t > 0 || self.restricts()
    }
}

/// What must come of a call, and T and S of each of its steps: the crate's, of a check document 01's.
fn told(what: &What, sets: &[Set; 2], bdds: &[Bdd; 2]) -> (Made, Vec<(usize, usize)>) {
    let l = sets[0].len();
    match what {
        Operator(p, flip) => {
            let told = tell(*p, bdds, flip.map_or(NO_FLIP, u32::from));
            let step = (told.pairs(), told.size());
            (Made::Array(told.array), vec![step])
        }
        Dry(p) => {
            let told = tell(*p, bdds, NO_FLIP);
            (Made::Pairs(told.holds, told.count), vec![(told.pairs(), told.size())])
        }
        Related(relation) => {
            let (made, steps) = theirs::relate(&bdds[0], relation, usize::MAX);
            // Nothing is made where it is too long; other sets are drawn then.
            let array = made.map(theirs::set).unwrap_or_default();
            (Made::Array(array), steps.iter().map(|step| (step.t, step.s)).collect())
        }
        Not => (Made::Array(theirs::set(bdds[0].not())), vec![(0, l)]),
        Check(which) => (Made::Says(CHECKS[*which](&sets[0])), vec![(0, 0)]),
        Write => (Made::Bytes(bdds[0].to_bytes()), vec![(0, 0)]),
        Read => (Made::Array(sets[0].clone()), vec![(0, l)]),
    }
}

fn tell(p: u8, bdds: &[Bdd; 2], flip: u32) -> Told {
    theirs::tell(&operator(p), &bdds[0], &bdds[1], [KEEP[0], flip, KEEP[2]], usize::MAX).unwrap()
}

/// What is lent; each call clears the working runs and leaves them cleared.
pub struct Lent {
    pub variable: Vec<u16>,
    pub low: Vec<u32>,
    pub high: Vec<u32>,
    pub pairs: Vec<u32>,
    pub stack: Vec<u32>,
    pub index: Vec<u32>,
    pub map: Vec<u32>,
    pub spare_variable: Vec<u16>,
    pub spare_low: Vec<u32>,
    pub spare_high: Vec<u32>,
    pub bytes: Vec<u8>,
}

impl Lent {
    /// Room for w entries, r pairs and a map of so many, as far as the call is lent them.
    fn new(ask: &Ask, w: usize, r: usize, map: usize) -> Lent {
        let n = ask.sets[0].variable[0] as usize;
        let lent_if = |lent: bool, len: usize| if lent { len } else { 0 };
        let w = lent_if(!matches!(ask.what, Dry(_)), w.min(MOST_ENTRIES));
        let spare = match &ask.what {
            Related(Relation::Pick(list)) => spare_len(list.len(), w),
            _ => 0,
        };
        Lent {
            variable: vec![0; w],
            low: vec![0; w],
            high: vec![0; w],
            pairs: vec![0; lent_if(ask.t > 0, pairs_len(r))],
            stack: vec![0; lent_if(ask.works(), stack_len(n))],
            index: vec![0; lent_if(ask.works(), index_len(w))],
            map: vec![0; lent_if(ask.restricts(), map)],
            spare_variable: vec![0; spare],
            spare_low: vec![0; spare],
            spare_high: vec![0; spare],
            bytes: vec![0; lent_if(matches!(ask.what, Write), file_len(ask.sets[0].len()))],
        }
    }

    /// Runs of 4 MiB and for the longest array, for any of these.
    pub fn large(jobs: &[Job]) -> Lent {
        let pairs = jobs.iter().map(|job| job.ask.t).max().unwrap();
        Lent::new(&jobs[0].ask, MOST_ENTRIES, LARGE_PAIRS.max(pairs), MOST_ENTRIES)
    }

    /// Fills everything with ones, so that nothing is found that an earlier call made.
    pub fn blot(&mut self) {
        let (low, high, spare_low, spare_high) =
            (&mut self.low, &mut self.high, &mut self.spare_low, &mut self.spare_high);
        for run in [low, high, &mut self.pairs, &mut self.stack, &mut self.index, &mut self.map, spare_low, spare_high]
        {
            run.fill(u32::MAX);
        }
        self.variable.fill(u16::MAX);
        self.spare_variable.fill(u16::MAX);
        self.bytes.fill(u8::MAX);
    }

    /// Whether it holds what the call must have made.
    pub fn holds(&self, made: &Made) -> bool {
        match made {
            Made::Array(set) => {
                let s = set.len();
                self.variable[..s] == set.variable && self.low[..s] == set.low && self.high[..s] == set.high
            }
            Made::Bytes(bytes) => self.bytes == *bytes,
            Made::Pairs(..) | Made::Says(_) => true,
        }
    }

    /// Fills the working runs with zeros as often as the call does.
    pub fn clear(&mut self, ask: &Ask) {
        match &ask.what {
            Related(Relation::Restrict(_)) => {
                fill(&mut self.index);
                fill(&mut self.map[..ask.sets[0].len()]);
                fill(&mut self.index);
                fill(&mut self.map);
                fill(&mut self.stack);
            }
            Related(Relation::Pick(list)) => {
                (0..4 * list.len()).for_each(|_| self.clear_operator());
                self.clear_all();
                fill(&mut self.spare_variable);
                fill(&mut self.spare_low);
                fill(&mut self.spare_high);
            }
            _ => self.clear_operator(),
        }
    }

    /// An operator clears the places of the pair run and the index as it begins, and all as it ends. A dry run has no index.
    fn clear_operator(&mut self) {
        let places = self.pairs.len() / 4;
        fill(&mut self.pairs[..places]);
        fill(&mut self.index);
        self.clear_all();
    }

    fn clear_all(&mut self) {
        fill(&mut self.pairs);
        fill(&mut self.stack);
        fill(&mut self.index);
    }
}

fn fill<T: Copy + Default>(run: &mut [T]) {
    if !run.is_empty() {
        black_box(run).fill(T::default());
    }
}

pub struct Job {
    pub ask: Ask,
    /// In the rooms that go by what is needed; the large one is shared.
    pub lent: [Lent; LARGE],
}

impl Job {
    pub fn new(what: What, sets: [Set; 2]) -> Job {
        let ask = Ask::new(what, sets);
        let (t, s, l) = (ask.t, ask.s, ask.sets[0].len());
        let lent = [|x| x, |x| 10 * x / 9, |x| 2 * x]
            .map(|over: fn(usize) -> usize| Lent::new(&ask, over(s), over(t), over(l)));
        Job { ask, lent }
    }
}
