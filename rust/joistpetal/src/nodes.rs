use crate::{Bdd, BddNode, BddPointer, BddVariable, Refusal};

/// A set as a list of nodes.
impl Bdd {
    /// The entries as nodes.
    pub fn to_nodes(self) -> Vec<BddNode> {
        self.entries()
            .map(|(variable, low, high)| {
                BddNode::mk_node(
                    BddVariable::from_index(variable.into()),
                    BddPointer::new(low),
                    BddPointer::new(high),
                )
            })
            .collect()
    }

    /// The set of these nodes. Refused with 2 if they are not an ordered one: the original lets links to later nodes and to nodes of
    /// the same option through, so that a set can go round in circles.
    pub fn from_nodes(data: &[BddNode]) -> Result<Bdd, Refusal> {
        if data.is_empty() {
            return Err(Refusal::LEFT_NOT_ORDERED);
        }
        let variable: Vec<u16> = data.iter().map(|node| node.var.number()).collect();
        let low: Vec<u32> = data.iter().map(|node| node.low_link.number()).collect();
        let high: Vec<u32> = data.iter().map(|node| node.high_link.number()).collect();
        let set = Bdd::new(&variable, &low, &high);
        if !set.is_ordered() {
            return Err(Refusal::LEFT_NOT_ORDERED);
        }
        Ok(set)
    }

    /// Whether the set is ordered and every entry is reached from the last, in words if not. That it is ordered the proved check tells;
    /// the original tests less of it, see `from_nodes`.
    pub fn validate(&self) -> Result<(), String> {
        if !self.is_ordered() {
            return Err(Refusal::LEFT_NOT_ORDERED.into());
        }
        if !self.is_all_reached() {
            return Err("BDD has unreachable nodes.".into());
        }
        Ok(())
    }

    /// The last entry.
    pub fn root_pointer(&self) -> BddPointer {
        BddPointer::from_index(self.size() - 1)
    }

    /// The low link of an entry; nothing if the set has no such entry, where the original panics.
    pub fn low_link_of(&self, node: BddPointer) -> Option<BddPointer> {
        let link = self.set().low.get(node.to_index())?;
        Some(BddPointer::new(*link))
    }

    /// The high link of an entry; nothing if the set has no such entry, where the original panics.
    pub fn high_link_of(&self, node: BddPointer) -> Option<BddPointer> {
        let link = self.set().high.get(node.to_index())?;
        Some(BddPointer::new(*link))
    }

    /// The option of an entry, of a terminal the number of options; nothing if the set has no such entry, where the original panics.
    pub fn var_of(&self, node: BddPointer) -> Option<BddVariable> {
        let variable = self.set().variable.get(node.to_index())?;
        Some(BddVariable::from_index(usize::from(*variable)))
    }

    /// Of an ordered set: every link goes to an earlier entry, so one way back over them meets each after all that link to it.
    fn is_all_reached(&self) -> bool {
        let set = self.set();
        let mut reached = vec![false; self.size()];
        reached[self.size() - 1] = true;
        for i in (2..self.size()).rev() {
            if !reached[i] {
                return false;
            }
            reached[set.low[i] as usize] = true;
            reached[set.high[i] as usize] = true;
        }
        true
    }
}

/// For code that keeps the `String` that the original's `from_nodes` fails with.
impl From<Refusal> for String {
    fn from(refusal: Refusal) -> String {
        refusal.to_string()
    }
}
