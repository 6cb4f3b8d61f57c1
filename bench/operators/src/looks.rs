//! How many places of the pair run a search looks at: the exploration of an operator or a dry run over a model of the map by
//! chains, as the library has it. A look is a place whose chain is walked, or a node of it.
use crate::jobs::{Ask, What};
use compare::paper::{Set, operator};

/// A chain with so many nodes is full, and a search goes to so many places at most.
const FULL: usize = 4;
const TRIES: usize = 8;

type Pair = (u32, u32);

#[derive(Default)]
pub struct Looks {
    pub searches: usize,
    pub looks: usize,
}

/// A place to each pair that there is room for, and the nodes in the order in which pairs come, each with the one behind it.
struct Model {
    heads: Vec<usize>,
    nodes: Vec<(Pair, usize)>,
    seen: Looks,
}

impl Model {
    fn new(room: usize) -> Model {
        Model { heads: vec![0; room], nodes: Vec::new(), seen: Looks::default() }
    }

    /// Whether the pair stands; else the place to which it belongs.
    fn search(&mut self, pair: Pair) -> Result<(), usize> {
        self.seen.searches += 1;
        let (mut mixed, mut tried) = (pair.0, 0);
        loop {
            mixed = mixed.wrapping_mul(0x3EC0_5657).wrapping_add(pair.1.wrapping_mul(0x6E1E_F25B));
            let place = (mixed as u64 * self.heads.len() as u64 >> 32) as usize;
            self.seen.looks += 1;
            let (mut next, mut met) = (self.heads[place], 0);
            while next != 0 {
                self.seen.looks += 1;
                if self.nodes[next - 1].0 == pair {
                    return Ok(());
                }
                (next, met) = (self.nodes[next - 1].1, met + 1);
            }
            tried += 1;
            if met < FULL || tried == TRIES {
                return Err(place);
            }
        }
    }

    /// One search; whether the pair is new.
    fn insert(&mut self, pair: Pair) -> bool {
        let Err(place) = self.search(pair) else { return false };
        assert!(self.nodes.len() < self.heads.len());
        self.nodes.push((pair, self.heads[place]));
        self.heads[place] = self.nodes.len();
        true
    }
}

struct Step<'a> {
    table: [u8; 9],
    sets: &'a [Set; 2],
}

impl Step<'_> {
    fn undecided(&self, (l, r): Pair) -> bool {
        self.table[3 * l.min(2) as usize + r.min(2) as usize] == 2
    }

    /// The child where the asked option is off, and where it is on.
    fn children(&self, (l, r): Pair) -> [Pair; 2] {
        let [a, b] = self.sets;
        let (v, w) = (a.variable[l as usize], b.variable[r as usize]);
        let side = |set: &Set, i: u32, moves: bool| {
            if moves { [set.low[i as usize], set.high[i as usize]] } else { [i, i] }
        };
        let ([l0, l1], [r0, r1]) = (side(a, l, v <= w), side(b, r, w <= v));
        [(l0, r0), (l1, r1)]
    }

    fn root(&self) -> Pair {
        (self.sets[0].len() as u32 - 1, self.sets[1].len() as u32 - 1)
    }

    /// Depth first: the high child and all below it, then the low child; each is searched for once, as its turn comes.
    fn operator(&self, mut model: Model) -> Looks {
        let mut waiting = vec![self.root()];
        while let Some(pair) = waiting.pop() {
            if self.undecided(pair) && model.insert(pair) {
                waiting.extend(self.children(pair));
            }
        }
        model.seen
    }

    /// The nodes are the queue: both children of each are searched for, the high one first.
    fn dry_run(&self, mut model: Model) -> Looks {
        if self.undecided(self.root()) {
            model.insert(self.root());
        }
        let mut next = 0;
        while let Some(&(pair, _)) = model.nodes.get(next) {
            for child in self.children(pair).into_iter().rev().filter(|child| self.undecided(*child)) {
                model.insert(child);
            }
            next += 1;
        }
        model.seen
    }
}

/// Of an operator without a flip, or a dry run, in a pair run of so many pairs.
pub fn looks(ask: &Ask, room: usize) -> Option<Looks> {
    let step = |p: u8| Step { table: operator(p), sets: &ask.sets };
    match ask.what {
        What::Operator(p, None) => Some(step(p).operator(Model::new(room))),
        What::Dry(p) => Some(step(p).dry_run(Model::new(room))),
        _ => None,
    }
}
