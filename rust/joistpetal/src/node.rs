use crate::BddVariable;
use std::fmt::{Display, Formatter, Result as Shown};

/// The number of an entry.
#[derive(Clone, Copy, Debug, Eq, Hash, Ord, PartialEq, PartialOrd)]
pub struct BddPointer(u32);

impl BddPointer {
    /// Entry 0, off.
    pub fn zero() -> BddPointer {
        BddPointer(0)
    }

    /// Entry 1, on.
    pub fn one() -> BddPointer {
        BddPointer(1)
    }

    /// Whether it is entry 0.
    pub fn is_zero(&self) -> bool {
        self.0 == 0
    }

    /// Whether it is entry 1.
    pub fn is_one(&self) -> bool {
        self.0 == 1
    }

    /// Whether it is entry 0 or 1.
    pub fn is_terminal(&self) -> bool {
        self.0 < 2
    }

    /// The entry's number.
    pub fn to_index(self) -> usize {
        self.0 as usize
    }

    /// The entry of that number. One that does not fit becomes 4,294,967,295, which no set has either; the original cuts it to 32 bits.
    pub fn from_index(index: usize) -> BddPointer {
        BddPointer(u32::try_from(index).unwrap_or(u32::MAX))
    }

    /// Entry 1 for on, 0 for off.
    pub fn from_bool(value: bool) -> BddPointer {
        BddPointer(u32::from(value))
    }

    /// The value of a terminal, nothing for any other entry.
    pub fn as_bool(&self) -> Option<bool> {
        self.is_terminal().then_some(self.is_one())
    }

    /// Entries 0 and 1 change places; any other stays.
    pub fn flip_if_terminal(&mut self) {
        if self.is_terminal() {
            self.0 = 1 - self.0;
        }
    }

    /// As in the byte form, least byte first.
    pub fn to_le_bytes(self) -> [u8; 4] {
        self.0.to_le_bytes()
    }

    /// From the byte form, least byte first.
    pub fn from_le_bytes(bytes: [u8; 4]) -> BddPointer {
        BddPointer(u32::from_le_bytes(bytes))
    }

    pub(crate) fn new(number: u32) -> BddPointer {
        BddPointer(number)
    }

    pub(crate) fn number(self) -> u32 {
        self.0
    }
}

impl Display for BddPointer {
    fn fmt(&self, f: &mut Formatter) -> Shown {
        Display::fmt(&self.0, f)
    }
}

/// An entry: its option, and the entries that are followed where the option is off and where it is on. A terminal has the number of
/// options in the place of an option, and links to itself.
#[derive(Clone, Copy, Debug, Eq, Hash, PartialEq)]
pub struct BddNode {
    /// The option.
    pub var: BddVariable,
    /// Followed where it is off.
    pub low_link: BddPointer,
    /// Followed where it is on.
    pub high_link: BddPointer,
}

impl BddNode {
    /// Entry 0 over `num_vars` options.
    pub fn mk_zero(num_vars: u16) -> BddNode {
        BddNode::mk_terminal(num_vars, BddPointer::zero())
    }

    /// Entry 1 over `num_vars` options.
    pub fn mk_one(num_vars: u16) -> BddNode {
        BddNode::mk_terminal(num_vars, BddPointer::one())
    }

    /// Any entry.
    pub fn mk_node(var: BddVariable, low_link: BddPointer, high_link: BddPointer) -> BddNode {
        BddNode {
            var,
            low_link,
            high_link,
        }
    }

    /// Whether both links are entry 0 or both entry 1: so are those of a terminal, and of no other entry of a tidy set.
    pub fn is_terminal(&self) -> bool {
        self.low_link == self.high_link && self.low_link.is_terminal()
    }

    /// Whether both links are entry 1.
    pub fn is_one(&self) -> bool {
        self.is_terminal() && self.low_link.is_one()
    }

    /// Whether both links are entry 0.
    pub fn is_zero(&self) -> bool {
        self.is_terminal() && self.low_link.is_zero()
    }

    fn mk_terminal(num_vars: u16, itself: BddPointer) -> BddNode {
        BddNode::mk_node(BddVariable::from_index(num_vars.into()), itself, itself)
    }
}
