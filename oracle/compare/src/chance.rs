//! Chance from a seed: numbers, and sets of many kinds.
use crate::paper::{Set, one_array};
use std::cmp::Ordering;
use std::collections::HashMap;

/// xorshift64, the same numbers in every run.
#[derive(Clone)]
pub struct Chance(u64);

impl Chance {
    pub fn new(seed: u64) -> Chance {
        Chance(seed.wrapping_mul(0x9e37_79b9_7f4a_7c15) | 1)
    }

    pub fn next(&mut self) -> u64 {
        self.0 ^= self.0 << 13;
        self.0 ^= self.0 >> 7;
        self.0 ^= self.0 << 17;
        self.0
    }

    /// Below `bound`; 0 where there is nothing below it.
    pub fn below(&mut self, bound: usize) -> usize {
        (((self.next() >> 32) * bound as u64) >> 32) as usize
    }

    pub fn once_in(&mut self, times: usize) -> bool {
        self.below(times) == 0
    }

    pub fn one_of<T: Clone>(&mut self, all: &[T]) -> T {
        all[self.below(all.len())].clone()
    }
}

/// How the entries of a set at random are drawn.
#[derive(Clone, Copy, Debug)]
pub enum Draw {
    /// Any option at any entry; much is never reached.
    Scattered,
    /// Options fall from entry to entry and links go a little way back, so that walks are long.
    Layered,
}

/// Merely ordered, with l entries: some redundant, some repeated, some never reached.
pub fn ordered_set(chance: &mut Chance, n: u16, l: usize, draw: Draw) -> Set {
    let mut set = Set::terminals(n, l.min(2));
    if n == 0 {
        return set;
    }
    let noise = chance.one_of(&[0, 8, 30]);
    while set.len() < l {
        let i = set.len();
        if noise > 0 && i > 2 && chance.once_in(noise) {
            let (variable, low, high) = set.entry(2 + chance.below(i - 2));
            set.push(variable, low, high);
            continue;
        }
        let variable = match draw {
            Draw::Scattered => chance.below(n as usize) as u16,
            Draw::Layered => n - 1 - ((i - 2) * n as usize / l) as u16,
        };
        let low = link(chance, &set, variable, draw);
        let high = if noise > 0 && chance.once_in(noise) { low } else { link(chance, &set, variable, draw) };
        set.push(variable, low, high);
    }
    set
}

fn link(chance: &mut Chance, set: &Set, variable: u16, draw: Draw) -> u32 {
    let l = set.len();
    let window = match draw {
        Draw::Scattered => l,
        Draw::Layered => l.min(2 + 3 * l / (2 + set.variable[0] as usize)),
    };
    for _ in 0..8 {
        let i = l - 1 - chance.below(window);
        if set.variable[i] > variable {
            return i as u32;
        }
    }
    chance.below(2) as u32
}

/// Of the kinds that a desk may see: signed, low side first, in some other order, merely ordered.
pub fn some_set(chance: &mut Chance, n: u16, l: usize) -> Set {
    let draw = if chance.once_in(3) { Draw::Scattered } else { Draw::Layered };
    let set = ordered_set(chance, n, l, draw);
    match chance.below(6) {
        0 | 1 => one_array(&set, true),
        2 => one_array(&set, false),
        3 => shuffled(chance, &one_array(&set, true)),
        _ => set,
    }
}

/// The same entries in another order in which links still go back, the root last.
pub fn shuffled(chance: &mut Chance, set: &Set) -> Set {
    let l = set.len();
    if l < 3 {
        return set.clone();
    }
    let (mut made, mut places) = (Set::terminals(set.variable[0], 2), vec![u32::MAX; l]);
    (places[0], places[1]) = (0, 1);
    let mut waiting: Vec<usize> = (2..l - 1).collect();
    while !waiting.is_empty() {
        // An entry whose links have been laid out; the first that still waits is always one.
        let start = chance.below(waiting.len().min(9));
        let ready = |i: usize| [set.low[i], set.high[i]].iter().all(|&k| places[k as usize] < u32::MAX);
        let at = (0..=start).rev().find(|&k| ready(waiting[k])).unwrap();
        let i = waiting.remove(at);
        made.push(set.variable[i], places[set.low[i] as usize], places[set.high[i] as usize]);
        places[i] = made.len() as u32 - 1;
    }
    let (variable, low, high) = set.entry(l - 1);
    made.push(variable, places[low as usize], places[high as usize]);
    made
}

/// The same function in up to l entries: each entry stands several times, and links go to any of the copies.
pub fn unfolded(chance: &mut Chance, set: &Set, l: usize) -> Set {
    let copies = (l - 3) / (set.len().max(4) - 3);
    let mut made = Set::terminals(set.variable[0], set.len().min(2));
    let mut places: Vec<Vec<u32>> = (0..set.len().min(2) as u32).map(|i| vec![i]).collect();
    for i in 2..set.len() {
        let (variable, low, high) = set.entry(i);
        let times = if i + 1 == set.len() { 1 } else { copies };
        let first = made.len() as u32;
        for _ in 0..times {
            let (low, high) = (chance.one_of(&places[low as usize]), chance.one_of(&places[high as usize]));
            made.push(variable, low, high);
        }
        places.push((first..made.len() as u32).collect());
    }
    made
}

/// A signed set of exactly l entries over n options, 64 of them kept for a chain on top.
pub fn signed_of(chance: &mut Chance, n: u16, l: usize) -> Set {
    const CHAIN: u16 = 64;
    let mut drawn = l;
    loop {
        let below = ordered_set(chance, n - CHAIN, drawn, Draw::Layered);
        let mut set = one_array(&below, true);
        for i in 0..set.len() {
            set.variable[i] += CHAIN;
        }
        if set.len() <= l && l - set.len() <= CHAIN as usize {
            for k in 0..(l - set.len()) as u16 {
                let root = set.len() as u32 - 1;
                set.push(CHAIN - 1 - k, 0, root);
            }
            return set;
        }
        drawn = if set.len() > l { drawn - drawn.min(7) } else { drawn + (l - set.len()).min(40) };
    }
}

/// The signed set of a function given by its values, option 0 deciding between the halves.
pub fn signed_of_values(values: &[bool]) -> Set {
    let mut set = Set::terminals(values.len().trailing_zeros() as u16, 2);
    write(&mut set, &mut HashMap::new(), 0, values);
    set
}

fn write(set: &mut Set, known: &mut HashMap<(u16, u32, u32), u32>, option: u16, values: &[bool]) -> u32 {
    if values.len() == 1 {
        return values[0] as u32;
    }
    let (off, on) = values.split_at(values.len() / 2);
    let high = write(set, known, option + 1, on);
    let low = write(set, known, option + 1, off);
    if low == high {
        return low;
    }
    *known.entry((option, low, high)).or_insert_with(|| {
        set.push(option, low, high);
        set.len() as u32 - 1
    })
}

/// A signed set of l entries: a random function of which only the first values are kept, as many as give that size.
pub fn function_of(chance: &mut Chance, options: u32, l: usize) -> Set {
    loop {
        let all: Vec<bool> = (0..1 << options).map(|_| chance.once_in(2)).collect();
        let (mut few, mut many) = (0, all.len());
        while few + 1 < many {
            let k = (few + many) / 2;
            let kept: Vec<bool> = all.iter().enumerate().map(|(i, &on)| i < k && on).collect();
            let set = signed_of_values(&kept);
            match set.len().cmp(&l) {
                Ordering::Equal => return set,
                Ordering::Less => few = k,
                Ordering::Greater => many = k,
            }
        }
    }
}

/// The signed set that is on where the options' random weights add up to 0 modulo m, and the last option, which has no
/// weight, stands as asked: about m entries for each option.
pub fn modular(chance: &mut Chance, n: u16, m: usize, last: bool) -> Set {
    let mut set = Set::terminals(n, 2);
    set.push(n - 1, !last as u32, last as u32);
    let mut states: Vec<u32> = (0..m).map(|state| if state == 0 { 2 } else { 0 }).collect();
    for option in (0..n - 1).rev() {
        let weight = 1 + chance.below(m - 1);
        let next: Vec<u32> = (0..m).map(|state| states[(state + weight) % m]).collect();
        for (low, high) in states.iter_mut().zip(next) {
            set.push(option, *low, high);
            *low = set.len() as u32 - 1;
        }
    }
    // The root is the sum 0.
    let (variable, low, high) = set.entry(states[0] as usize);
    set.push(variable, low, high);
    one_array(&set, true)
}

/// One number of a set changed: to a small one, a neighbour, an extreme, or that of another entry.
pub fn damaged(chance: &mut Chance, set: &Set) -> Set {
    let mut bad = set.clone();
    let i = chance.below(bad.len());
    let other = chance.below(bad.len());
    match chance.below(3) {
        0 => {
            let was = bad.variable[i];
            let news = [
                0,
                1,
                2,
                was.wrapping_add(1),
                was.wrapping_sub(1),
                255,
                256,
                257,
                65535,
                bad.variable[other],
                bad.variable[0],
            ];
            bad.variable[i] = chance.one_of(&news);
        }
        side => {
            let (from, n) = (bad.low.clone(), bad.len() as u32);
            let links = if side == 1 { &mut bad.low } else { &mut bad.high };
            let was = links[i];
            let far =
                [i as u32, i as u32 + 1, n - 1, n, 4095, 4096, 65536, 65536 + was, 1 << 31, u32::MAX, u32::MAX - 1];
            let near = [0, 1, 2, was.wrapping_add(1), was.wrapping_sub(1), other as u32, from[i], from[other]];
            links[i] = if chance.once_in(2) { chance.one_of(&far) } else { chance.one_of(&near) };
        }
    }
    bad
}
