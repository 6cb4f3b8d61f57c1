//! Sets from and to three runs of numbers, and operators from nine numbers.
use biodivine_lib_bdd::Bdd;

/// A set as three runs of one length.
#[derive(Debug, PartialEq, Eq)]
pub struct Runs {
    pub variable: Vec<u16>,
    pub low: Vec<u32>,
    pub high: Vec<u32>,
}

/// Goes through the byte reader, the one way in that looks at nothing.
pub fn set_of(variable: &[u16], low: &[u32], high: &[u32]) -> Bdd {
    let mut bytes = Vec::with_capacity(10 * variable.len());
    for ((variable, low), high) in variable.iter().zip(low).zip(high) {
        bytes.extend(variable.to_le_bytes());
        bytes.extend(low.to_le_bytes());
        bytes.extend(high.to_le_bytes());
    }
    Bdd::from_bytes(&mut bytes.as_slice())
}

pub fn runs_of(set: Bdd) -> Runs {
    let nodes = set.to_nodes();
    Runs {
        variable: nodes
            .iter()
            .map(|node| node.var.to_index() as u16)
            .collect(),
        low: nodes
            .iter()
            .map(|node| node.low_link.to_index() as u32)
            .collect(),
        high: nodes
            .iter()
            .map(|node| node.high_link.to_index() as u32)
            .collect(),
    }
}

/// 0 is off, 1 on, anything else not yet known.
pub fn known(number: u8) -> Option<bool> {
    match number {
        0 => Some(false),
        1 => Some(true),
        _ => None,
    }
}

pub fn number(known: Option<bool>) -> u8 {
    known.map_or(2, u8::from)
}

/// The closure that answers place 3a+b of the table.
pub fn closure(table: [u8; 9]) -> impl Fn(Option<bool>, Option<bool>) -> Option<bool> {
    move |left, right| known(table[usize::from(3 * number(left) + number(right))])
}

#[cfg(test)]
mod tests {
    use super::*;

    #[test]
    fn runs_come_back() {
        let (variable, low, high) = ([2, 2, 65535], [0, 1, u32::MAX], [0, 1, 7]);
        let runs = runs_of(set_of(&variable, &low, &high));
        assert_eq!(runs.variable, variable);
        assert_eq!(runs.low, low);
        assert_eq!(runs.high, high);
    }

    #[test]
    fn closure_reads_its_place() {
        let and = closure([0, 0, 0, 0, 1, 2, 0, 2, 2]);
        assert_eq!(and(Some(false), None), Some(false));
        assert_eq!(and(Some(true), Some(true)), Some(true));
        assert_eq!(and(None, Some(true)), None);
    }
}
