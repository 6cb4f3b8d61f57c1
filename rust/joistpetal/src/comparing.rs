use crate::ffi;
use crate::runs::lend;
use crate::{Bdd, Refusal};
use joistpetal_sys::{SAME_MEANING, SAME_NUMBERS, SETTING};

/// How two sets stand to each other, whatever their layouts.
#[derive(Clone, Debug, PartialEq, Eq)]
pub enum Comparison {
    /// They are equal, number for number: their bytes have one hash.
    SameNumbers,
    /// They mean the same in another order: [`signing_order`](Bdd::signing_order) gives both one array.
    SameMeaning,
    /// They differ at a setting.
    Differ {
        /// The first setting at which they do, a value to an option, read from option 0 on, off before on.
        setting: Vec<bool>,
        /// The left set's value there; the right set has the other.
        left: bool,
    },
}

/// What sets mean.
impl Bdd {
    /// The value at a setting, a value to an option. Refused with 2, and with 10 where there are not as many values as options.
    pub fn value_at(&self, setting: &[bool]) -> Result<bool, Refusal> {
        let numbers: Vec<u8> = setting.iter().map(|&on| u8::from(on)).collect();
        ffi::value_at(self.set(), &numbers)
    }

    /// How this set and another stand to each other. Refused with 2, 3 and 4.
    pub fn compare(&self, right: &Bdd) -> Result<Comparison, Refusal> {
        let mut setting = [0; SETTING];
        let (standing, left) = lend(|runs| runs.compare(self.set(), right.set(), &mut setting))?;
        Ok(match standing {
            SAME_NUMBERS => Comparison::SameNumbers,
            SAME_MEANING => Comparison::SameMeaning,
            _ => Comparison::Differ {
                setting: setting[..usize::from(self.num_vars())]
                    .iter()
                    .map(|&on| on == 1)
                    .collect(),
                left,
            },
        })
    }
}
