//! What the tests share: sets from entries, the one array of a function worked out from its values, chance from a seed.
#![allow(dead_code)]
use joistpetal::{Bdd, BddVariable};
use std::collections::HashMap;

pub type Entry = (u16, u32, u32);

/// The bytes of any entries.
pub fn bytes_of(entries: &[Entry]) -> Vec<u8> {
    let mut bytes = Vec::new();
    for (variable, low, high) in entries {
        bytes.extend(variable.to_le_bytes());
        bytes.extend(low.to_le_bytes());
        bytes.extend(high.to_le_bytes());
    }
    bytes
}

/// A set of any entries.
pub fn any(entries: &[Entry]) -> Bdd {
    Bdd::from_bytes(&mut bytes_of(entries).as_slice()).expect("1 to 4,096 entries")
}

/// A set of the two terminals over n options and the entries from 2 on, as the paper shows it.
pub fn set(n: u16, entries: &[Entry]) -> Bdd {
    any(&[&[(n, 0, 0), (n, 1, 1)], entries].concat())
}

pub fn option(index: usize) -> BddVariable {
    BddVariable::from_index(index)
}

pub fn literal(n: u16, v: usize, value: bool) -> Bdd {
    Bdd::mk_literal(n, option(v), value).expect("an option")
}

/// xorshift64: the same in every run.
pub struct Random(pub u64);

impl Random {
    pub fn next(&mut self) -> u64 {
        self.0 ^= self.0 << 13;
        self.0 ^= self.0 >> 7;
        self.0 ^= self.0 << 17;
        self.0
    }

    pub fn below(&mut self, bound: usize) -> usize {
        (self.next() >> 16) as usize % bound
    }

    /// The values of a function of n options. Setting s has option i on where bit n-1-i of s is.
    pub fn values(&mut self, n: u16) -> Vec<bool> {
        (0..1 << n).map(|_| self.next() >> 63 == 1).collect()
    }
}

/// The array of the function with these values, in signing order: the high side is written first.
pub fn array(values: &[bool]) -> Vec<Entry> {
    written(values, true)
}

/// The same with the low side first, as restriction writes it.
pub fn array_low_first(values: &[bool]) -> Vec<Entry> {
    written(values, false)
}

fn written(values: &[bool], high_first: bool) -> Vec<Entry> {
    let n = values.len().trailing_zeros() as u16;
    let mut writer = Writer {
        entries: vec![(n, 0, 0), (n, 1, 1)],
        known: HashMap::new(),
        high_first,
    };
    if writer.write(0, values) == 0 {
        writer.entries.truncate(1);
    }
    writer.entries
}

struct Writer {
    entries: Vec<Entry>,
    known: HashMap<Entry, u32>,
    high_first: bool,
}

impl Writer {
    fn write(&mut self, option: u16, values: &[bool]) -> u32 {
        if values.len() == 1 {
            return values[0] as u32;
        }
        let (off, on) = values.split_at(values.len() / 2);
        let (first, other) = if self.high_first {
            (on, off)
        } else {
            (off, on)
        };
        let first = self.write(option + 1, first);
        let other = self.write(option + 1, other);
        if first == other {
            return first;
        }
        let (low, high) = if self.high_first {
            (other, first)
        } else {
            (first, other)
        };
        let entries = &mut self.entries;
        *self.known.entry((option, low, high)).or_insert_with(|| {
            entries.push((option, low, high));
            entries.len() as u32 - 1
        })
    }
}

/// The values with one option put on or off.
pub fn put(values: &[bool], v: usize, on: bool) -> Vec<bool> {
    let n = values.len().trailing_zeros() as usize;
    let bit = 1 << (n - 1 - v);
    (0..values.len())
        .map(|s| values[if on { s | bit } else { s & !bit }])
        .collect()
}

/// The values with one option switched.
pub fn switched(values: &[bool], v: usize) -> Vec<bool> {
    let n = values.len().trailing_zeros() as usize;
    (0..values.len())
        .map(|s| values[s ^ (1 << (n - 1 - v))])
        .collect()
}

/// A set of exactly that many entries in signing order: a random function of which only the first values are kept.
pub fn of_size(size: usize, n: u16, random: &mut Random) -> Vec<Entry> {
    for _ in 0..20 {
        let all = random.values(n);
        let (mut few, mut many) = (0, all.len());
        while few + 1 < many {
            let kept = (few + many) / 2;
            let values: Vec<bool> = (0..all.len()).map(|s| s < kept && all[s]).collect();
            let entries = array(&values);
            match entries.len() {
                l if l == size => return entries,
                l if l < size => few = kept,
                _ => many = kept,
            }
        }
    }
    panic!("no set of {size} entries over {n} options was found");
}
