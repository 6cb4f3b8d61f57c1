//! Laws of Boolean algebra over chains of operators: both sides as arrays, ours and the crate's.
use crate::chance::{Chance, some_set};
use crate::checks::{negate, shown};
use crate::operators::{Base, operate};
use crate::ours::{Desk, NAMED};
use crate::paper::{Flips, KEEP, Set, one_array, operator};
use crate::tally::Tally;
use crate::theirs;

const AND: u8 = 8;
const OR: u8 = 14;
const XOR: u8 = 6;

struct Chain<'a> {
    desk: &'a mut Desk,
    tally: &'a mut Tally,
}

impl Chain<'_> {
    /// The array that ours made; each step is judged on its own as well.
    fn op(&mut self, p: u8, left: &Set, right: &Set, flips: Flips) -> Set {
        let table = operator(p);
        let base = Base::new(&table, left, right, flips);
        operate(self.desk, self.tally, &base, None, &base.exact());
        self.taken(base.s())
    }

    fn not(&mut self, set: &Set) -> Set {
        let s = if set.len() < 3 { 3 - set.len() } else { set.len() };
        negate(self.desk, self.tally, set, [s; 3]);
        self.taken(s)
    }

    fn taken(&mut self, s: usize) -> Set {
        let output = &mut self.desk.output;
        let (variable, low, high) = (&output.variable.part()[..s], &output.low.part()[..s], &output.high.part()[..s]);
        Set { variable: variable.to_vec(), low: low.to_vec(), high: high.to_vec() }
    }

    fn law(&mut self, name: &str, one: &Set, other: &Set) {
        let outcome = if one == other { Ok(()) } else { Err(name.to_string()) };
        self.tally.count(outcome, || format!("{} against {}", shown(one), shown(other)));
    }
}

pub fn random(desk: &mut Desk, tally: &mut Tally, rounds: usize) {
    let mut chance = Chance::new(9);
    tally.family("chains: De Morgan, distribution, flips twice, double negation");
    for round in 0..rounds {
        let n = chance.one_of(&[1, 2, 4, 6, 9, 12, 40]);
        let most = if round % 20 == 0 { 120 } else { 20 };
        let [a, b, c] = [0, 0, 0].map(|_| {
            let l = 1 + chance.below(most);
            some_set(&mut chance, n, l)
        });
        let mut chain = Chain { desk, tally };
        laws(&mut chain, &a, &b, &c);
        flips(&mut chain, &mut chance, &a, &b);
    }
}

fn laws(chain: &mut Chain, a: &Set, b: &Set, c: &Set) {
    let [x, y, z] = [a, b, c].map(theirs::bdd);
    let (not_a, not_b) = (chain.not(a), chain.not(b));
    let twice = chain.not(&not_a);
    chain.law("not not a = a", &twice, a);
    for (p, q) in [(AND, OR), (OR, AND)] {
        let both = chain.op(p, a, b, KEEP);
        let one = chain.not(&both);
        let other = chain.op(q, &not_a, &not_b, KEEP);
        let crates = if p == AND { x.and(&y).not() } else { x.or(&y).not() };
        chain.law("De Morgan", &one, &other);
        chain.law("De Morgan, the crate's", &one, &theirs::set(crates));
        let joined = chain.op(q, b, c, KEEP);
        let one = chain.op(p, a, &joined, KEEP);
        let (left, right) = (chain.op(p, a, b, KEEP), chain.op(p, a, c, KEEP));
        let other = chain.op(q, &left, &right, KEEP);
        let crates = if p == AND { x.and(&y.or(&z)) } else { x.or(&y.and(&z)) };
        chain.law("distribution", &one, &other);
        chain.law("distribution, the crate's", &one, &theirs::set(crates));
    }
    let nothing = chain.op(XOR, a, a, KEEP);
    chain.law("a xor a", &nothing, &Set::terminals(a.variable[0], 1));
}

fn flips(chain: &mut Chain, chance: &mut Chance, a: &Set, b: &Set) {
    let n = a.variable[0];
    let (v, none, p) = (chance.below(n as usize) as u32, KEEP[0], chance.one_of(&NAMED));
    let (on, signed) = (Set::terminals(n, 2), one_array(a, true));
    for one in [[v, none, none], [none, none, v]] {
        let once = chain.op(AND, a, &on, one);
        let twice = chain.op(AND, &once, &on, one);
        chain.law("flipped twice", &twice, &signed);
    }
    let right = chain.op(OR, &Set::terminals(n, 1), a, [none, v, none]);
    let back = chain.op(AND, &on, &right, [none, none, v]);
    chain.law("flipped back at the output", &back, &signed);
    let inside = chain.op(p, a, b, [v, v, none]);
    let outside = chain.op(p, a, b, [none, none, v]);
    chain.law("both sides flipped = output flipped", &inside, &outside);
}
