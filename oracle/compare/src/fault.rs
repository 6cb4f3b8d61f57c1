//! Deliberate faults, to see that the comparison notices them: COMPARE_FAULT=K spoils one answer or one number of one
//! lent run, once, at the hundredth call at which it can; from 43 on every call of a kind is another.
use crate::lent::{Cell, Run};
use crate::meaning::Relation::{self, *};
use crate::ours::{Answer, Desk, Output};
use crate::paper::{Set, one_array};
use std::borrow::Cow;
use std::ops::BitXorAssign;

const AT: u32 = 100;

#[derive(Default)]
pub struct Fault {
    kind: u32,
    left: u32,
}

impl Fault {
    pub fn asked() -> Fault {
        let kind = std::env::var("COMPARE_FAULT").ok().and_then(|kind| kind.parse().ok()).unwrap_or(0);
        Fault { kind, left: AT }
    }

    pub fn any(&self) -> bool {
        self.kind > 0
    }

    /// Whether this is the call to spoil.
    fn now(&mut self, can: bool) -> bool {
        if can && self.left > 0 {
            self.left -= 1;
            return self.left == 0;
        }
        false
    }

    /// 1 to 3: one of the three checks.
    pub fn checks(&mut self, mut answers: [u32; 3]) -> [u32; 3] {
        if (1..=3).contains(&self.kind) {
            let answer = &mut answers[self.kind as usize - 1];
            if self.now(*answer > 0) {
                *answer = 0;
            }
        }
        answers
    }

    /// 4 to 18: what a maker of arrays left.
    pub fn touch(&mut self, answer: &mut Answer, desk: &mut Desk, working: bool) {
        let Answer { number, size } = *answer;
        let (done, cleared) = (number == 0, (7..=9).contains(&number));
        let output = &mut desk.output;
        let kind = self.kind;
        match kind {
            4 if self.now(number == 8) => answer.number = 9,
            5 if self.now(done) => answer.size += 1,
            6 if self.now(cleared) => answer.size = 1,
            7 if self.now(done && size > 4) => output.low.part()[size - 1] ^= 1,
            8 if self.now(done && size > 4) => output.variable.part()[2] ^= 1,
            9 if self.now(done && size > 4) => output.high.part().swap(size - 1, size - 2),
            10 if self.now(done && output.high.len() > size) => output.high.part()[size] ^= 1,
            11 if self.now(cleared && output.low.len() > 0) => last(&mut output.low),
            12 if self.now((1..=6).contains(&number) && output.low.len() > 0) => last(&mut output.low),
            13 if self.now(working && (done || cleared) && desk.pairs.len() > 0) => last(&mut desk.pairs),
            14 if self.now(working && (done || cleared) && desk.stack.len() > 0) => last(&mut desk.stack),
            15 if self.now(working && (done || cleared) && desk.index.len() > 0) => last(&mut desk.index),
            16 if self.now(working && (1..=6).contains(&number) && desk.pairs.len() > 0) => last(&mut desk.pairs),
            17 if self.now(done) => *answer = Answer { number: 9, size: 0 },
            18 if self.now(number == 2) => answer.number = 3,
            _ => (),
        }
    }

    /// 22 to 42: what a call of module 7 left.
    pub fn relation(&mut self, answer: &mut Answer, desk: &mut Desk, relation: &Relation) {
        let Answer { number, size } = *answer;
        let (done, clears) = (number == 0, matches!(number, 0 | 7 | 9));
        let kind = self.kind;
        let Desk { output, pairs, stack, index, map, spare, .. } = desk;
        match kind {
            22 if self.now(number == 10) => answer.number = 5,
            23 if self.now(number == 7) => answer.number = 9,
            24 if self.now(number == 9) => answer.number = 7,
            25 if self.now(number == 10) => answer.size = 1,
            26 if self.now(done) => answer.size += 1,
            27 if self.now(done && size > 3) => output.low.part()[size - 1] ^= 1,
            28 if done && relation.restricts() => self.sign(output, size),
            29 if self.now(done && output.high.len() > size) => output.high.part()[size] ^= 1,
            30 if self.now(clears && !done && output.low.len() > 0) => last(&mut output.low),
            31 if self.now(!clears && output.low.len() > 0) => last(&mut output.low),
            32 if self.now(clears && pairs.len() > 0) => last(pairs),
            33 if self.now(clears && stack.len() > 0) => last(stack),
            34 if self.now(clears && index.len() > 0) => last(index),
            35 if self.now(clears && map.len() > 0) => last(map),
            36 if self.now(clears && spare.variable.len() > 0) => last(&mut spare.variable),
            37 if self.now(clears && spare.low.len() > 0) => last(&mut spare.low),
            38 if self.now(clears && spare.high.len() > 0) => last(&mut spare.high),
            39 if self.now(!clears && pairs.len() > 0) => last(pairs),
            40 if self.now(!clears && map.len() > 0) => last(map),
            41 if self.now(number == 6 && index.len() > 0) => last(index),
            42 if self.now(number == 10 && spare.variable.len() > 0) => last(&mut spare.variable),
            _ => (),
        }
    }

    /// 43 to 52: every call of module 7 is asked for something else.
    pub fn asked_for<'a>(&self, relation: &'a Relation) -> Cow<'a, Relation> {
        let values = |list: &[u8], change: fn(u8) -> u8| Restrict(list.iter().map(|value| change(*value)).collect());
        Cow::Owned(match (self.kind, relation) {
            (43, Exists(v)) => ForAll(*v),
            (44, ForAll(v)) => Exists(*v),
            (45, Select(v, on)) => Select(*v, !on),
            (46, VarRestrict(v, on)) => VarRestrict(*v, !on),
            (47, Restrict(list)) => values(list, |value| if value < 2 { 1 - value } else { value }),
            (48, Restrict(list)) => values(list, |value| value.min(2)),
            (49, Pick(list)) => Pick((0..=u16::MAX).filter(|v| list.contains(v)).collect()),
            (50, Pick(list)) => Pick(list.split_last().map_or(Vec::new(), |(_, rest)| rest.to_vec())),
            (51, VarPick(v)) => Pick(vec![*v]),
            (52, Pick(list)) if list.len() == 1 => VarPick(list[0]),
            _ => return Cow::Borrowed(relation),
        })
    }

    /// The array in signing order, where that is another.
    fn sign(&mut self, output: &mut Output, size: usize) {
        let [low, high] = [&mut output.low, &mut output.high].map(|run| &mut run.part()[..size]);
        let was = Set { variable: output.variable.part()[..size].to_vec(), low: low.to_vec(), high: high.to_vec() };
        let made = one_array(&was, true);
        if self.now(made != was) {
            output.variable.part()[..size].copy_from_slice(&made.variable);
            low.copy_from_slice(&made.low);
            high.copy_from_slice(&made.high);
        }
    }

    /// 19 and 20: a dry run's two numbers.
    pub fn dry(&mut self, number: u32, holds: &mut u32, count: &mut usize) {
        let kind = self.kind;
        match kind {
            19 if self.now(number == 0) => *holds ^= 1,
            20 if self.now(number == 0) => *count += 1,
            _ => (),
        }
    }

    /// 21: a byte that was written.
    pub fn byte(&mut self, bytes: &mut Run<u8>, number: u32) {
        if self.kind == 21 && self.now(number == 0) {
            bytes.part()[3] ^= 1;
        }
    }
}

fn last<T: Cell + BitXorAssign>(run: &mut Run<T>) {
    if let Some(number) = run.part().last_mut() {
        *number ^= T::of(1);
    }
}
