use std::error::Error;
use std::fmt::{Debug, Display, Formatter, Result};
use std::io;

/// Why a call says no: the paper's number, and its words.
///
/// It is an error like any other, so `?` hands it on, and it shows itself as `refusal 4: option counts differ`.
/// The constants can stand in patterns:
///
/// ```
/// use joistpetal::{Bdd, Refusal};
///
/// let two = Bdd::mk_true(2)?;
/// let three = Bdd::mk_true(3)?;
/// match two.and(&three) {
///     Ok(_) => unreachable!(),
///     Err(Refusal::COUNTS_DIFFER) => {}
///     Err(other) => return Err(other),
/// }
/// assert_eq!(two.and(&three).unwrap_err().to_string(), "refusal 4: option counts differ");
/// # Ok::<(), Refusal>(())
/// ```
#[derive(Clone, Copy, PartialEq, Eq, Hash)]
pub struct Refusal(u32);

impl Refusal {
    /// 1: operator table or operator number bad.
    pub const BAD_TABLE: Refusal = Refusal(1);
    /// 2: left (or only) set not ordered.
    pub const LEFT_NOT_ORDERED: Refusal = Refusal(2);
    /// 3: right set not ordered.
    pub const RIGHT_NOT_ORDERED: Refusal = Refusal(3);
    /// 4: option counts differ.
    pub const COUNTS_DIFFER: Refusal = Refusal(4);
    /// 5: a variable or flip is n or more; a literal's or terminal's n above 256.
    pub const NO_SUCH_OPTION: Refusal = Refusal(5);
    /// 6: a working run too short. No call of this crate gives it: the crate lends enough.
    pub const SHORT_RUN: Refusal = Refusal(6);
    /// 7: more pairs than the pair run has places. No call of this crate gives it: the crate lends more and asks again.
    pub const PAIR_ROOM: Refusal = Refusal(7);
    /// 8: longer than the limit. The calls with a limit say `Ok(None)` for it, as the original says `None`;
    /// `.ok_or(Refusal::OVER_LIMIT)` makes it an error again.
    pub const OVER_LIMIT: Refusal = Refusal(8);
    /// 9: longer than the room lent, 4,096 entries.
    pub const NO_ROOM: Refusal = Refusal(9);
    /// 10: a list of options that are picked repeats one, or a setting's values are not one to an option. A restriction's values are
    /// made here, so that they never are refused.
    pub const BAD_LIST: Refusal = Refusal(10);

    /// What the library answered in the place of 0.
    pub(crate) fn numbered(number: u32) -> Refusal {
        Refusal(number)
    }

    /// The paper's number.
    pub fn number(self) -> u32 {
        self.0
    }

    /// The paper's words, from its table "When the desk says no".
    pub fn words(self) -> &'static str {
        match self.0 {
            1 => "operator table or operator number bad",
            2 => "left (or only) set not ordered",
            3 => "right set not ordered",
            4 => "option counts differ",
            5 => "a variable or flip is n or more; a literal's or terminal's n above 256",
            6 => {
                "stack shorter than 2n+1, index shorter than W, map shorter than L, \
                 or spare shorter than (k+4) times W for k picked options"
            }
            7 => "T > R (operators)",
            8 => "S > limit and limit at most W",
            9 => "S > W, where W < limit or no limit is asked",
            10 => "option list repeats one; restriction values not n of 0, 1, 2 (2 free)",
            _ => "a number that this crate has no words for",
        }
    }

    /// The refusal that an error of [`read_as_bytes`](crate::Bdd::read_as_bytes) or
    /// [`write_as_bytes`](crate::Bdd::write_as_bytes) carries, if it is one and no failure of the reader or writer itself.
    pub fn carried_by(error: &io::Error) -> Option<Refusal> {
        error.get_ref()?.downcast_ref::<Refusal>().copied()
    }
}

impl Display for Refusal {
    fn fmt(&self, f: &mut Formatter) -> Result {
        write!(f, "refusal {}: {}", self.number(), self.words())
    }
}

/// As it is displayed, since `expect` shows an error by this.
impl Debug for Refusal {
    fn fmt(&self, f: &mut Formatter) -> Result {
        Display::fmt(self, f)
    }
}

impl Error for Refusal {}

/// For the calls that keep the original's `io::Error`.
impl From<Refusal> for io::Error {
    fn from(refusal: Refusal) -> io::Error {
        io::Error::new(io::ErrorKind::InvalidData, refusal)
    }
}
