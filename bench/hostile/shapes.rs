//! Sets that are shaped against the library's maps: which keys are chosen, and the sets in which they stand.
use joistpetal_sys::{MOST_ENTRIES, MOST_OPTIONS};
use std::cmp::Reverse;
use std::collections::HashSet;

/// As in crates/chains: a chain of so many nodes is full, and a search goes to so many places at most.
pub const FULL: usize = 4;
pub const TRIES: usize = 8;

/// What a map is asked for: the two numbers of a pair; of an entry in the index, option and low link in one number, and the
/// high link; of an entry in a comparison, the option, and both links in one number.
pub type Key = (u32, u32);

pub fn fold(option: usize, low: u32) -> u32 {
    (option as u32) << 20 | low
}

pub fn fold_links(low: u32, high: u32) -> u32 {
    low << 15 | high
}

fn low_of(x: u32) -> u32 {
    x % (1 << 20)
}

/// The places of a key, in the order of its search.
pub fn places((x, y): Key, room: usize) -> impl Iterator<Item = usize> {
    let mix = move |x: u32| x.wrapping_mul(0x3EC0_5657).wrapping_add(y.wrapping_mul(0x6E1E_F25B));
    std::iter::successors(Some(mix(x)), move |t| Some(mix(*t))).map(move |t| (t as u64 * room as u64 >> 32) as usize)
}

/// More than any search meets: what a first place with a full chain tells.
const UNKNOWN: usize = usize::MAX - 1;

/// How keys are chosen.
#[derive(Clone)]
pub enum Choice {
    Usual,
    /// First places as near to place 0 as can be.
    OnePlace,
    /// So many chains are made full; then the search for each new key is to meet as many nodes as can be.
    FullChains(usize),
    /// The chains at all places of these keys but the last are made full before the keys come.
    Far(Vec<Key>),
}

use Choice::*;

/// xorshift64: the same sets in every run.
struct Random(u64);

impl Random {
    fn next(&mut self) -> usize {
        self.0 ^= self.0 << 13;
        self.0 ^= self.0 >> 7;
        self.0 ^= self.0 << 17;
        (self.0 >> 1) as usize
    }
}

/// Chooses keys for a map of the library's kind, in the order in which they come.
struct Shaper {
    choice: Choice,
    load: Vec<usize>,
    /// The places whose chains are to be full.
    wanted: Vec<bool>,
    used: HashSet<Key>,
    random: Random,
}

impl Shaper {
    fn new(choice: &Choice, room: usize, seed: usize) -> Shaper {
        let (mut wanted, mut used) = (vec![false; room], HashSet::new());
        match choice {
            FullChains(count) => wanted[..*count].fill(true),
            Far(keys) => {
                keys.iter().flat_map(|key| places(*key, room).take(TRIES - 1)).for_each(|place| wanted[place] = true);
                used.extend(keys);
            }
            _ => (),
        }
        let random = Random(0x9e37_79b9_7f4a_7c15 ^ (seed as u64) << 20);
        Shaper { choice: choice.clone(), load: vec![0; room], wanted, used, random }
    }

    /// The nodes that the search for a new key meets, and the place to which it then belongs.
    fn meets(&self, key: Key) -> (usize, usize) {
        let mut end = (0, 0);
        for place in places(key, self.load.len()).take(TRIES) {
            end = (end.0 + self.load[place], place);
            if self.load[place] < FULL {
                break;
            }
        }
        end
    }

    /// A key comes.
    fn take(&mut self, key: Key) {
        let place = self.meets(key).1;
        self.load[place] += 1;
        self.used.insert(key);
    }

    /// How much a key is wanted, as far as its first place tells; 0 is not at all.
    fn rank(&self, first: usize) -> usize {
        let load = self.load[first];
        match self.choice {
            OnePlace => self.load.len() - first,
            _ if self.wanted[first] && load < FULL => usize::MAX,
            FullChains(_) if load < FULL => load,
            FullChains(_) => UNKNOWN,
            _ => 0,
        }
    }

    /// So many new keys out of all of xs and ys, but none of an entry with equal links.
    fn choose(&mut self, xs: &[u32], ys: &[u32], count: usize) -> Vec<Key> {
        let (room, mut chosen, mut scan) = (self.load.len(), Vec::new(), !matches!(self.choice, Usual));
        while chosen.len() < count {
            let ranks = Vec::from_iter((0..room).map(|first| self.rank(first)));
            let (mut best, mut floor) = (Vec::new(), 0);
            for &x in if scan { xs } else { &[] } {
                for &y in ys {
                    let rank = ranks[places((x, y), room).next().unwrap()];
                    if floor < rank && low_of(x) != y && !self.used.contains(&(x, y)) {
                        best.push((if rank == UNKNOWN { self.meets((x, y)).0 } else { rank }, (x, y)));
                    }
                }
                // No more are kept than may be needed.
                if 16 * count < best.len() {
                    best.sort_unstable_by_key(|(rank, _)| Reverse(*rank));
                    best.truncate(count);
                    floor = best[count - 1].0;
                }
            }
            best.sort_by_key(|(rank, _)| Reverse(*rank));
            scan = !best.is_empty();
            if !scan {
                best.push((0, (xs[self.random.next() % xs.len()], ys[self.random.next() % ys.len()])));
            }
            for (rank, key) in best {
                // A chain that was to be full may be by now.
                let good = low_of(key.0) != key.1 && rank <= self.rank(places(key, room).next().unwrap());
                if good && chosen.len() < count && !self.used.contains(&key) {
                    self.take(key);
                    chosen.push(key);
                }
            }
        }
        chosen
    }
}

pub struct Set {
    pub variable: Vec<u16>,
    pub low: Vec<u32>,
    pub high: Vec<u32>,
}

impl Set {
    fn new(options: usize) -> Set {
        Set { variable: vec![options as u16; 2], low: vec![0, 1], high: vec![0, 1] }
    }

    fn push(&mut self, variable: usize, low: u32, high: u32) -> u32 {
        self.variable.push(variable as u16);
        self.low.push(low);
        self.high.push(high);
        self.len() as u32 - 1
    }

    pub fn len(&self) -> usize {
        self.variable.len()
    }

    pub fn options(&self) -> usize {
        self.variable[0] as usize
    }
}

/// The pairs that an operator is to meet: so many that are chosen, of which number 0 is met last, and then those that lead to
/// them, as option, low and high, the last being the root. Both sets have one entry for each of the latter, and below them as
/// many equal entries as there is room for, of which the chosen pairs are made.
pub struct Shape {
    options: usize,
    chosen: usize,
    above: Vec<(usize, usize, usize)>,
}

impl Shape {
    /// A tree whose leaves are the chosen pairs.
    pub fn tree(levels: usize) -> Shape {
        let mut shape = Shape { options: levels + 1, chosen: 1 << levels, above: Vec::new() };
        shape.grow(0, &Vec::from_iter(0..shape.chosen));
        shape
    }

    /// Rows of pairs that all lead to number 0, so that it is searched for as often as there are pairs in them. They begin as
    /// far from the root as the pairs that lead to the chosen ones, so that a dry run too, which goes level by level, notes
    /// number 0 behind the other chosen ones.
    pub fn rows() -> Shape {
        let mut shape = Shape { options: MOST_OPTIONS, chosen: 64, above: Vec::new() };
        let first = shape.grow(1, &Vec::from_iter(0..64));
        let row = |_| (6..68).rev().fold(0, |next, option| shape.push(option, 0, next));
        let rows = Vec::from_iter((0..32).map(row));
        let second = shape.grow(1, &rows);
        shape.push(0, second, first);
        shape
    }

    fn push(&mut self, option: usize, low: usize, high: usize) -> usize {
        self.above.push((option, low, high));
        self.pairs() - 1
    }

    fn grow(&mut self, option: usize, leaves: &[usize]) -> usize {
        if leaves.len() == 1 {
            return leaves[0];
        }
        let (off, on) = leaves.split_at(leaves.len() / 2);
        let (low, high) = (self.grow(option + 1, off), self.grow(option + 1, on));
        self.push(option, low, high)
    }

    pub fn pairs(&self) -> usize {
        self.chosen + self.above.len()
    }

    /// Two sets with these pairs, shaped against a pair run with so many places as an operator fills it.
    pub fn sets(&self, choice: &Choice, room: usize, seed: usize) -> Vec<Set> {
        let mut shaper = Shaper::new(choice, room, seed);
        let first = MOST_ENTRIES - self.above.len();
        // Each set has the entries of an option in an order of its own, so that their pairs are not regular.
        let orders = [0; 2].map(|_| {
            let mut order = Vec::from_iter(0..self.above.len());
            order.sort_by_cached_key(|i| (Reverse(self.above[*i].0), shaper.random.next()));
            order
        });
        let [mut left, mut right] = orders.each_ref().map(|order| {
            let mut numbers = vec![0; self.pairs()];
            order.iter().zip(first as u32..).for_each(|(i, number)| numbers[self.chosen + i] = number);
            numbers
        });
        let free = Vec::from_iter(2..first as u32);
        let (mut waiting, mut turns, mut known) = (vec![self.pairs() - 1], Vec::new(), vec![false; self.pairs()]);
        while let Some(i) = waiting.pop() {
            if std::mem::replace(&mut known[i], true) {
                continue;
            }
            if self.chosen <= i {
                shaper.take((left[i], right[i]));
                let (_, low, high) = self.above[i - self.chosen];
                waiting.extend([low, high]);
                continue;
            }
            turns.push(i);
            // So many at once, since each choice looks at all that there is.
            if turns.len() == 64 {
                let keys = shaper.choose(&free, &free, 64);
                turns.drain(..).zip(keys).for_each(|(i, key)| (left[i], right[i]) = key);
            }
        }
        if let Far(far) = choice {
            (left[0], right[0]) = far[0];
        }
        let set = |(order, numbers): (Vec<usize>, Vec<u32>)| {
            let mut set = Set::new(self.options);
            free.iter().for_each(|_| _ = set.push(self.options - 1, 0, 1));
            for i in order {
                let (option, low, high) = self.above[i];
                set.push(option, numbers[low], numbers[high]);
            }
            set
        };
        orders.into_iter().zip([left, right]).map(set).collect()
    }
}

/// A tidy set of 4,096 entries, at most 34 of each option, that link to any of greater options.
pub fn tidy_set(choice: &Choice, room: usize, seed: usize) -> Vec<Set> {
    let mut shaper = Shaper::new(choice, room, seed);
    let mut set = Set::new(MOST_OPTIONS);
    for option in (0..MOST_OPTIONS).rev() {
        let links = Vec::from_iter(0..set.len() as u32);
        let lows = Vec::from_iter(links.iter().map(|low| fold(option, *low)));
        let count = 34.min(links.len() * (links.len() - 1)).min(MOST_ENTRIES - links.len());
        shaper.choose(&lows, &links, count).into_iter().for_each(|(low, high)| _ = set.push(option, low_of(low), high));
    }
    vec![set]
}

/// Two tidy sets that differ.
pub fn tidy_sets(choice: &Choice, room: usize, seed: usize) -> Vec<Set> {
    [2 * seed, 2 * seed + 1].into_iter().flat_map(|seed| tidy_set(choice, room, seed)).collect()
}

/// The options of the tree in the sets that are restricted, and the leaves before those that repeat.
const LEVELS: usize = 11;
const BEFORE: usize = 384;

/// The two leaves that repeat, as 1 2 2 1, and what the three entries of the tree above such four leaves become.
pub fn repeated() -> [Key; 5] {
    let first = 2 + 2 * BEFORE as u32 - BEFORE.count_ones();
    let above = |level, low, high| (fold(LEVELS - level, first + low), first + high);
    [(fold(LEVELS, 2), 3), (fold(LEVELS, 3), 2), above(1, 0, 1), above(1, 1, 0), above(2, 2, 3)]
}

/// A set of 4,096 entries in the order in which a restriction writes, low side first: a tree whose leaves are chosen, to
/// link to leaves before them of greater options. Leaves repeat as entries of their own: such a set is not tidy.
pub fn leaves_set<const REPEAT: bool>(choice: &Choice, room: usize, seed: usize) -> Vec<Set> {
    let mut shaper = Shaper::new(choice, room, seed);
    let (mut set, mut stack, mut option) = (Set::new(MOST_OPTIONS), Vec::new(), MOST_OPTIONS);
    let (mut batch, mut links, mut fresh) = (Vec::new(), vec![0, 1], Vec::new());
    for leaf in 0..1_usize << LEVELS {
        if batch.is_empty() {
            option -= 1;
            links.append(&mut fresh);
            let lows = Vec::from_iter(links.iter().map(|low| fold(option, *low)));
            batch = shaper.choose(&lows, &links, 9.min(links.len() * (links.len() - 1)));
        }
        let again = REPEAT && BEFORE <= leaf;
        let key = if again { repeated()[(leaf % 4).count_ones() as usize % 2] } else { batch.pop().unwrap() };
        // There is room for one entry less: the first leaf is the last too.
        let last = leaf + 1 == 1 << LEVELS;
        stack.push(if last { 2 } else { set.push(if again { LEVELS } else { option }, low_of(key.0), key.1) });
        fresh.extend(stack.last());
        // The entries of the tree whose leaves are complete.
        for level in 1..=(leaf + 1).trailing_zeros() as usize {
            let (high, low) = (stack.pop().unwrap(), stack.pop().unwrap());
            stack.push(set.push(LEVELS - level, low, high));
        }
    }
    vec![set]
}

/// The entry that repeats in the sets that are compared: of option 100, with entries 2 and 3 as links.
pub const COPIED: Key = (100, 2 << 15 | 3);

/// Two sets that mean the same: both are copies of one entry, in the left one behind others, 60 of them chosen. A comparison
/// looks at every entry, whether the root leads to it or not.
pub fn copies_sets(choice: &Choice, room: usize, seed: usize) -> Vec<Set> {
    const LINKS: u32 = 42;
    let mut sets = vec![Set::new(MOST_OPTIONS), Set::new(MOST_OPTIONS)];
    (2..LINKS as usize).for_each(|i| _ = sets[0].push(MOST_OPTIONS - i, 0, 1));
    (2..4).for_each(|i| _ = sets[1].push(MOST_OPTIONS - i, 0, 1));
    let options = Vec::from_iter(0..200);
    let pairs = (0..LINKS * LINKS).map(|i| (i / LINKS, i % LINKS)).filter(|(low, high)| low != high);
    let links = Vec::from_iter(pairs.map(|(low, high)| fold_links(low, high)));
    for (option, links) in Shaper::new(choice, room, seed).choose(&options, &links, 60) {
        sets[0].push(option as usize, links >> 15, links % (1 << 15));
    }
    for set in &mut sets {
        (set.len()..MOST_ENTRIES).for_each(|_| _ = set.push(COPIED.0 as usize, 2, 3));
    }
    sets
}
