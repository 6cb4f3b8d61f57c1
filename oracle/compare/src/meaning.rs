//! Module 7 of document 01 read a second time: when each of its calls is refused, and the array that it must write, worked out
//! on diagrams of our own and, for few options, at every setting. Nothing here looks at the Rust crate or at the port.
use crate::paper::{Rooms, Set, laid_out, one_array_by_settings, ordered, value};
use std::collections::HashMap;

/// A call of module 7, but for its set and what it is lent.
#[derive(Clone, Debug, PartialEq)]
pub enum Relation {
    Exists(u16),
    ForAll(u16),
    Select(u16, bool),
    Restrict(Vec<u8>),
    VarRestrict(u16, bool),
    VarPick(u16),
    Pick(Vec<u16>),
}

use Relation::*;

impl Relation {
    /// The options that it names.
    fn options(&self) -> &[u16] {
        match self {
            Exists(v) | ForAll(v) | Select(v, _) | VarRestrict(v, _) | VarPick(v) => std::slice::from_ref(v),
            Restrict(_) => &[],
            Pick(list) => list,
        }
    }

    /// Lent a map run, and no pair run.
    pub fn restricts(&self) -> bool {
        matches!(self, Restrict(_) | VarRestrict(..))
    }

    /// How many options are picked, where spare runs are lent.
    pub fn picked(&self) -> Option<usize> {
        matches!(self, VarPick(_) | Pick(_)).then(|| self.options().len())
    }
}

/// The lengths of what is lent; a call checks only what it is lent.
#[derive(Clone, Copy, Debug)]
pub struct Loan {
    pub rooms: Rooms,
    pub map: usize,
    pub spare: [usize; 3],
}

/// Refusals 2, 5 and 10, the first that holds, or n.
pub fn asked(set: &Set, relation: &Relation) -> Result<u16, u32> {
    let n = ordered(set).ok_or(2u32)?;
    if relation.options().iter().any(|&v| v >= n) {
        return Err(5);
    }
    let bad = match relation {
        Pick(list) => (1..list.len()).any(|i| list[..i].contains(&list[i])),
        Restrict(values) => values.len() != n as usize || values.iter().any(|&value| value > 2),
        _ => false,
    };
    if bad { Err(10) } else { Ok(n) }
}

/// Refusals 2, 5, 10 and 6, or 0 where none holds.
pub fn early(set: &Set, relation: &Relation, loan: &Loan) -> u32 {
    let n = match asked(set, relation) {
        Ok(n) => n as usize,
        Err(number) => return number,
    };
    let w = loan.rooms.w();
    let short = loan.rooms.stack < 2 * n + 1
        || loan.rooms.index < w
        || relation.restricts() && loan.map < set.len()
        || relation.picked().is_some_and(|k| loan.spare.iter().any(|&spare| spare < (k + 4) * w));
    6 * short as u32
}

/// One step: the pairs that it must remember, and the entries that it writes.
#[derive(Clone, Copy, Debug, PartialEq)]
pub struct Step {
    pub t: usize,
    pub s: usize,
}

/// Refusals 7 and 9: the first step that is refused answers for the whole.
pub fn late(steps: &[Step], rooms: &Rooms) -> u32 {
    let refused = |step: &Step| match step {
        step if step.t > rooms.r() => 7,
        step if step.s > rooms.w() => 9,
        _ => 0,
    };
    steps.iter().map(refused).find(|&number| number > 0).unwrap_or(0)
}

/// The array that must be written, of an ordered set and a call that is not refused with 5 or 10.
pub fn must(set: &Set, relation: &Relation) -> Set {
    match relation {
        Pick(list) if list.is_empty() => set.clone(),
        _ => Diagrams::new(set.variable[0]).must(set, relation),
    }
}

/// The same from the values at all settings; for few options.
pub fn must_by_settings(set: &Set, relation: &Relation) -> Set {
    match relation {
        Pick(list) if list.is_empty() => set.clone(),
        _ => one_array_by_settings(set.variable[0], !relation.restricts(), |at| value_of(set, relation, at)),
    }
}

/// The value that a call must have at a setting, option v being bit v.
fn value_of(set: &Set, relation: &Relation, at: u32) -> u32 {
    let is = |v: u16| at >> v & 1 == 1;
    let with = |at: u32, v: u16, on: bool| if on { at | 1 << v } else { at & !(1 << v) };
    match relation {
        Exists(v) => value(set, with(at, *v, false)) | value(set, with(at, *v, true)),
        ForAll(v) => value(set, with(at, *v, false)) & value(set, with(at, *v, true)),
        Select(v, on) => (is(*v) == *on) as u32 * value(set, at),
        VarRestrict(v, on) => value(set, with(at, *v, *on)),
        Restrict(values) => {
            let named = (0..).zip(values).filter(|(_, value)| **value < 2);
            value(set, named.fold(at, |at, (v, value)| with(at, v, *value == 1)))
        }
        VarPick(_) | Pick(_) => smallest(set, relation.options(), at) as u32,
    }
}

/// Allowed, and no allowed setting of the same other options is smaller in those picked, read from the smallest variable.
fn smallest(set: &Set, picked: &[u16], at: u32) -> bool {
    let mut picked = picked.to_vec();
    picked.sort_unstable();
    let mask: u32 = picked.iter().map(|v| 1 << v).sum();
    let read = |at: u32| picked.iter().map(|v| at >> v & 1).collect::<Vec<_>>();
    let others = (0..1 << set.variable[0]).filter(|other| (other ^ at) & !mask == 0);
    value(set, at) == 1 && others.filter(|&other| value(set, other) == 1).all(|other| read(other) >= read(at))
}

/// Nodes shared by what they mean: two are the same exactly where their values are.
struct Diagrams {
    nodes: Vec<(u16, u32, u32)>,
    known: HashMap<(u16, u32, u32), u32>,
    chosen: HashMap<(u32, u32, u32), u32>,
}

type Known = HashMap<u32, u32>;

impl Diagrams {
    fn new(n: u16) -> Diagrams {
        Diagrams { nodes: vec![(n, 0, 0), (n, 1, 1)], known: HashMap::new(), chosen: HashMap::new() }
    }

    fn must(&mut self, set: &Set, relation: &Relation) -> Set {
        let root = self.of(set);
        let made = match relation {
            Exists(v) => {
                let [off, on] = [0, 1].map(|value| self.put_one(root, *v, value));
                self.choose(off, 1, on)
            }
            ForAll(v) => {
                let [off, on] = [0, 1].map(|value| self.put_one(root, *v, value));
                self.choose(off, on, 0)
            }
            Select(v, on) => {
                let literal = self.node(*v, !on as u32, *on as u32);
                self.choose(literal, root, 0)
            }
            VarRestrict(v, on) => self.put_one(root, *v, *on as u8),
            Restrict(values) => self.put(root, values, &mut Known::new()),
            VarPick(_) | Pick(_) => {
                let mut marks = vec![false; set.variable[0] as usize];
                relation.options().iter().for_each(|&v| marks[v as usize] = true);
                self.pick(root, 0, &marks, &mut Known::new(), &mut HashMap::new())
            }
        };
        laid_out(&self.nodes, made, !relation.restricts())
    }

    fn node(&mut self, variable: u16, low: u32, high: u32) -> u32 {
        if low == high {
            return low;
        }
        let nodes = &mut self.nodes;
        *self.known.entry((variable, low, high)).or_insert_with(|| {
            nodes.push((variable, low, high));
            nodes.len() as u32 - 1
        })
    }

    fn of(&mut self, set: &Set) -> u32 {
        let mut means = vec![0, 1];
        for i in 2..set.len() {
            let (variable, low, high) = set.entry(i);
            means.push(self.node(variable, means[low as usize], means[high as usize]));
        }
        means[set.len() - 1]
    }

    /// The part of f at an option that no option of f precedes.
    fn part(&self, f: u32, option: u16, on: bool) -> u32 {
        match self.nodes[f as usize] {
            (variable, low, high) if variable == option && f > 1 => [low, high][on as usize],
            _ => f,
        }
    }

    /// g where f is on, h where it is off.
    fn choose(&mut self, f: u32, g: u32, h: u32) -> u32 {
        match f {
            0 => return h,
            1 => return g,
            _ if g == h => return g,
            _ => (),
        }
        if let Some(&made) = self.chosen.get(&(f, g, h)) {
            return made;
        }
        let option = [f, g, h].map(|node| self.nodes[node as usize].0).into_iter().min().unwrap();
        let [low, high] = [false, true].map(|on| {
            let [f, g, h] = [f, g, h].map(|node| self.part(node, option, on));
            self.choose(f, g, h)
        });
        let made = self.node(option, low, high);
        self.chosen.insert((f, g, h), made);
        made
    }

    /// f with each option put as its value says, 2 being free.
    fn put(&mut self, f: u32, values: &[u8], known: &mut Known) -> u32 {
        if f < 2 {
            return f;
        }
        if let Some(&made) = known.get(&f) {
            return made;
        }
        let (variable, low, high) = self.nodes[f as usize];
        let made = match values[variable as usize] {
            0 => self.put(low, values, known),
            1 => self.put(high, values, known),
            _ => {
                let (low, high) = (self.put(low, values, known), self.put(high, values, known));
                self.node(variable, low, high)
            }
        };
        known.insert(f, made);
        made
    }

    fn put_one(&mut self, f: u32, v: u16, value: u8) -> u32 {
        let mut values = vec![2; self.nodes[0].0 as usize];
        values[v as usize] = value;
        self.put(f, &values, &mut Known::new())
    }

    /// Whether some setting of the marked options is allowed.
    fn some(&mut self, f: u32, marks: &[bool], known: &mut Known) -> u32 {
        if f < 2 {
            return f;
        }
        if let Some(&made) = known.get(&f) {
            return made;
        }
        let (variable, low, high) = self.nodes[f as usize];
        let (low, high) = (self.some(low, marks, known), self.some(high, marks, known));
        let made = if marks[variable as usize] { self.choose(low, 1, high) } else { self.node(variable, low, high) };
        known.insert(f, made);
        made
    }

    /// From the smallest option on: off is kept, and on only where no setting of the marked options behind it is allowed
    /// with it off.
    fn pick(
        &mut self,
        f: u32,
        from: usize,
        marks: &[bool],
        some: &mut Known,
        known: &mut HashMap<(u32, usize), u32>,
    ) -> u32 {
        let top = self.nodes[f as usize].0 as usize;
        let option = (from..top).find(|&option| marks[option]).unwrap_or(top);
        if f == 0 || option == marks.len() {
            return f;
        }
        if let Some(&made) = known.get(&(f, option)) {
            return made;
        }
        let [off, on] = [false, true].map(|on| self.part(f, option as u16, on));
        let low = self.pick(off, option + 1, marks, some, known);
        let mut high = self.pick(on, option + 1, marks, some, known);
        if marks[option] {
            let off_allowed = self.some(off, marks, some);
            high = self.choose(off_allowed, 0, high);
        }
        let made = self.node(option as u16, low, high);
        known.insert((f, option), made);
        made
    }
}
