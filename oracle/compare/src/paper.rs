//! Document 01 read a second time, for sets of any size. Nothing here looks at the Rust crate or at the port.
use std::collections::HashMap;

pub const MOST_OPTIONS: u16 = 256;
pub const MOST_ENTRIES: usize = 4096;

#[derive(Clone, Debug, Default, PartialEq, Eq)]
pub struct Set {
    pub variable: Vec<u16>,
    pub low: Vec<u32>,
    pub high: Vec<u32>,
}

impl Set {
    /// Terminals over n options: one entry is false, two are true.
    pub fn terminals(n: u16, entries: usize) -> Set {
        let mut set = Set::default();
        (0..entries as u32).for_each(|i| set.push(n, i, i));
        set
    }

    pub fn push(&mut self, variable: u16, low: u32, high: u32) {
        self.variable.push(variable);
        self.low.push(low);
        self.high.push(high);
    }

    pub fn len(&self) -> usize {
        self.variable.len()
    }

    pub fn entry(&self, i: usize) -> (u16, u32, u32) {
        (self.variable[i], self.low[i], self.high[i])
    }
}

/// n, where the set is ordered.
pub fn ordered(set: &Set) -> Option<u16> {
    let l = set.variable.len();
    if set.low.len() != l || set.high.len() != l || l == 0 || l > MOST_ENTRIES {
        return None;
    }
    let n = set.variable[0];
    let terminals = set.entry(0) == (n, 0, 0) && (l == 1 || set.entry(1) == (n, 1, 1));
    if n > MOST_OPTIONS || !terminals {
        return None;
    }
    (2..l).all(|i| entry_ordered(set, i, n)).then_some(n)
}

fn entry_ordered(set: &Set, i: usize, n: u16) -> bool {
    let (variable, low, high) = set.entry(i);
    let fits = |link: u32| (link as usize) < i && set.variable[link as usize] > variable;
    variable < n && fits(low) && fits(high)
}

/// No equal links and no two equal, from entry 2 on; by sorting, not by hashing.
pub fn tidy(set: &Set) -> bool {
    if ordered(set).is_none() {
        return false;
    }
    let mut inner: Vec<_> = (2..set.len()).map(|i| set.entry(i)).collect();
    inner.sort_unstable();
    inner.iter().all(|&(_, low, high)| low != high) && inner.windows(2).all(|two| two[0] != two[1])
}

pub fn signing(set: &Set) -> bool {
    ordered(set).is_some() && *set == one_array(set, true)
}

/// The array of an ordered set's own function: reduced, then laid out from the root, one side first.
pub fn one_array(set: &Set, high_first: bool) -> Set {
    let n = set.variable[0];
    let (mut means, mut nodes) = (vec![0, 1], vec![(n, 0, 0), (n, 1, 1)]);
    let mut known = HashMap::new();
    for i in 2..set.len() {
        let (variable, low, high) = set.entry(i);
        let (low, high): (u32, u32) = (means[low as usize], means[high as usize]);
        means.push(if low == high {
            low
        } else {
            *known.entry((variable, low, high)).or_insert_with(|| {
                nodes.push((variable, low, high));
                nodes.len() as u32 - 1
            })
        });
    }
    laid_out(&nodes, means[set.len() - 1], high_first)
}

/// What the root reaches of a reduced diagram whose first two nodes are the terminals, one side first.
pub fn laid_out(nodes: &[(u16, u32, u32)], root: u32, high_first: bool) -> Set {
    let n = nodes[0].0;
    if root < 2 {
        return Set::terminals(n, root as usize + 1);
    }
    let mut layout = Layout { nodes, high_first, places: HashMap::new(), made: Set::terminals(n, 2) };
    layout.visit(root);
    layout.made
}

struct Layout<'a> {
    nodes: &'a [(u16, u32, u32)],
    high_first: bool,
    places: HashMap<u32, u32>,
    made: Set,
}

impl Layout<'_> {
    fn visit(&mut self, node: u32) -> u32 {
        if node < 2 {
            return node;
        }
        if let Some(&place) = self.places.get(&node) {
            return place;
        }
        let (variable, low, high) = self.nodes[node as usize];
        let (low, high) = if self.high_first {
            let high = self.visit(high);
            (self.visit(low), high)
        } else {
            (self.visit(low), self.visit(high))
        };
        self.made.push(variable, low, high);
        let place = self.made.len() as u32 - 1;
        self.places.insert(node, place);
        place
    }
}

/// The value at a setting, option v being bit v.
pub fn value(set: &Set, setting: u32) -> u32 {
    let mut i = set.len() - 1;
    while i > 1 {
        let (variable, low, high) = set.entry(i);
        i = if setting >> variable & 1 == 1 { high } else { low } as usize;
    }
    i as u32
}

/// The one array once more, from the values at all settings; for few options.
pub fn one_array_by_settings(n: u16, high_first: bool, value: impl Fn(u32) -> u32) -> Set {
    let values: Vec<u32> = (0..1 << n).map(value).collect();
    if values.iter().all(|&v| v == 0) {
        return Set::terminals(n, 1);
    }
    let mut made = Set::terminals(n, 2);
    write(&mut made, high_first, 0, 0, &values);
    made
}

fn write(made: &mut Set, high_first: bool, option: u16, setting: usize, values: &[u32]) -> u32 {
    if option == made.variable[0] {
        return values[setting];
    }
    let mut side = |on: usize| write(made, high_first, option + 1, setting | on << option, values);
    let (low, high) = if high_first {
        let high = side(1);
        (side(0), high)
    } else {
        (side(0), side(1))
    };
    if low == high {
        return low;
    }
    let found = (2..made.len()).find(|&i| made.entry(i) == (option, low, high));
    found.unwrap_or_else(|| {
        made.push(option, low, high);
        made.len() - 1
    }) as u32
}

/// A table that an operator may have: nine answers, sound at every place.
pub fn good(table: &[u8]) -> bool {
    table.len() == 9 && (0..3).all(|a| (0..3).all(|b| sound(table, a, b)))
}

fn sound(table: &[u8], a: usize, b: usize) -> bool {
    let filled = |x: usize| if x == 2 { 0..=1 } else { x..=x };
    let part = |x: usize| if x == 2 { 0..=2 } else { x..=x };
    match table[3 * a + b] {
        answer @ (0 | 1) => part(a).all(|x| part(b).all(|y| table[3 * x + y] == answer)),
        2 => filled(a).count() * filled(b).count() > 1,
        _ => false,
    }
}

/// The nine answers of operator p.
pub fn operator(p: u8) -> [u8; 9] {
    let at = |place: usize| {
        let fits = |x: usize, known: usize| x == 2 || x == known;
        let (a, b) = (place / 3, place % 3);
        let known = (0..4).filter(|k| fits(a, k / 2) && fits(b, k % 2)).map(|k| p >> k & 1);
        let answers: Vec<u8> = known.collect();
        if answers.iter().all(|&x| x == answers[0]) { answers[0] } else { 2 }
    };
    std::array::from_fn(at)
}

/// This number stands for no flip, and no other.
pub const NO_FLIP: u32 = 1 << 16;

pub type Flips = [u32; 3];

pub const KEEP: Flips = [NO_FLIP; 3];

/// What an operator is asked.
#[derive(Clone, Copy, Debug)]
pub struct Job<'a> {
    pub table: &'a [u8],
    pub left: &'a Set,
    pub right: &'a Set,
    pub flips: Flips,
    pub limit: Option<usize>,
}

/// The lengths of what is lent to it.
#[derive(Clone, Copy, Debug)]
pub struct Rooms {
    pub output: [usize; 3],
    pub pairs: usize,
    pub stack: usize,
    pub index: usize,
}

impl Rooms {
    pub fn w(&self) -> usize {
        self.output.into_iter().min().unwrap().min(MOST_ENTRIES)
    }

    pub fn r(&self) -> usize {
        self.pairs / 4
    }
}

/// Refusals 1 to 5, the first that holds, or n.
pub fn asked(job: &Job) -> Result<u16, u32> {
    if !good(job.table) {
        return Err(1);
    }
    let n = ordered(job.left).ok_or(2u32)?;
    let other = ordered(job.right).ok_or(3u32)?;
    if n != other {
        return Err(4);
    }
    if job.flips.iter().any(|&flip| flip != NO_FLIP && flip >= n as u32) {
        return Err(5);
    }
    Ok(n)
}

/// Refusals 1 to 6 of an operator, 0 where none holds.
pub fn early(job: &Job, rooms: &Rooms) -> u32 {
    match asked(job) {
        Err(number) => number,
        Ok(n) if rooms.stack < 2 * n as usize + 1 || rooms.index < rooms.w() => 6,
        Ok(_) => 0,
    }
}

/// Refusals 7 to 9 of an operator that needs T pairs and writes S entries.
pub fn late(t: usize, s: usize, rooms: &Rooms, limit: Option<usize>) -> u32 {
    let w = rooms.w();
    if t > rooms.r() {
        return 7;
    }
    match limit {
        Some(limit) if s > limit && limit <= w => 8,
        Some(limit) if s > w && w < limit => 9,
        None if s > w => 9,
        _ => 0,
    }
}

/// Refusals 1 to 6 of a dry run: of the lengths, only the stack's.
pub fn dry_early(job: &Job, stack: usize) -> u32 {
    match asked(job) {
        Err(number) => number,
        Ok(n) if stack < 2 * n as usize + 1 => 6,
        Ok(_) => 0,
    }
}

/// Refusals 7 and 8 of a dry run that counts c pairs.
pub fn dry_late(c: usize, r: usize, limit: Option<usize>) -> u32 {
    match limit {
        Some(limit) if c > limit && limit <= r => 8,
        Some(limit) if c > r && r < limit => 7,
        None if c > r => 7,
        _ => 0,
    }
}
