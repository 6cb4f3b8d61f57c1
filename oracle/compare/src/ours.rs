//! The proved archive behind calls that lend dirty runs and look at every number of them afterwards.
use crate::chance::Chance;
use crate::fault::Fault;
use crate::lent::{Cell, DIRT, Dirt, Run};
use crate::meaning::{Loan, Relation};
use crate::paper::{Job, Rooms, Set};
use joistpetal_sys::*;

/// Which of the forms of an operator is called. A job must have no flip or limit where the form has none, and the
/// table of operator p where the form has its number or name.
#[derive(Clone, Copy, Debug, PartialEq)]
pub enum Form {
    General,
    Plain,
    Limited,
    Flipped,
    Numbered(u8),
    NumberedLimited(u8),
    NumberedFlipped(u8),
    NumberedGeneral(u8),
    Named(u8),
    /// The job's left set alone.
    Signing,
}

/// The operators that have a name, in the order of `op_function.rs`.
pub const NAMED: [u8; 6] = [AND, OR, IMP, IFF, XOR, AND_NOT];

/// The paper's number and S, as they came back.
#[derive(Clone, Copy, Debug, PartialEq, Eq)]
pub struct Answer {
    pub number: u32,
    pub size: usize,
}

#[derive(Default)]
pub struct Output {
    pub variable: Run<u16>,
    pub low: Run<u32>,
    pub high: Run<u32>,
}

impl Output {
    fn lend(&mut self, lengths: [usize; 3], dirt: Dirt, chance: &mut Chance) {
        self.variable.lend(lengths[0], dirt, chance);
        self.low.lend(lengths[1], dirt, chance);
        self.high.lend(lengths[2], dirt, chance);
    }

    pub fn kept(&self) -> bool {
        self.variable.kept() && self.low.kept() && self.high.kept()
    }

    pub fn made(&self, made: &Set) -> bool {
        self.variable.made(&made.variable) && self.low.made(&made.low) && self.high.made(&made.high)
    }

    /// By the paper's last column, and what was made where the answer is 0.
    fn fits(&self, number: u32, made: &Set) -> bool {
        match number {
            0 => self.made(made),
            7..=9 => self.variable.cleared() && self.low.cleared() && self.high.cleared(),
            _ => self.kept(),
        }
    }
}

/// Everything that can be lent.
pub struct Desk {
    pub output: Output,
    pub pairs: Run<u32>,
    pub stack: Run<u32>,
    pub index: Run<u32>,
    pub map: Run<u32>,
    pub spare: Output,
    pub bytes: Run<u8>,
    pub chance: Chance,
    pub fault: Fault,
    /// How often each number was answered by an operator or a dry run, by a call of module 7, and how often each check said yes.
    pub numbers: [u64; 10],
    pub related: [u64; 11],
    pub yes: [u64; 3],
}

/// A set's runs as the archive takes them.
macro_rules! lent_set {
    ($call:ident, [$($before:expr),*], $set:expr, [$($after:expr),*]) => {
        $call(
            $($before,)*
            $set.variable.as_ptr(), $set.variable.len(), $set.low.as_ptr(), $set.low.len(), $set.high.as_ptr(), $set.high.len(),
            $($after,)*
        )
    };
}

/// An operator on the job's sets and the desk's runs.
macro_rules! called {
    ($desk:ident, $job:ident, $size:ident, $name:ident($($head:expr),*; $($flip:expr),*)) => {{
        let (a, b) = ($job.left, $job.right);
        let Desk { output: Output { variable, low, high }, pairs, stack, index, .. } = $desk;
        unsafe { $name(
            $($head,)*
            a.variable.as_ptr(), a.variable.len(), a.low.as_ptr(), a.low.len(), a.high.as_ptr(), a.high.len(),
            b.variable.as_ptr(), b.variable.len(), b.low.as_ptr(), b.low.len(), b.high.as_ptr(), b.high.len(),
            $($flip,)*
            variable.pointer(), variable.len(), low.pointer(), low.len(), high.pointer(), high.len(),
            pairs.pointer(), pairs.len(), stack.pointer(), stack.len(), index.pointer(), index.len(),
            &mut $size,
        ) }
    }};
}

/// A call of module 7 on one set, what it asks, the output, and the runs named.
macro_rules! related {
    ($desk:ident, $set:ident, $size:ident, $name:ident($($asked:expr),*), [$($run:ident),*]) => {{
        let Desk { output: Output { variable, low, high }, $($run,)* .. } = $desk;
        unsafe { lent_set!($name, [], $set, [
            $($asked,)*
            variable.pointer(), variable.len(), low.pointer(), low.len(), high.pointer(), high.len()
            $(, $run.pointer(), $run.len())*,
            $size
        ]) }
    }};
}

/// The same with the spare runs.
macro_rules! picked {
    ($desk:ident, $set:ident, $size:ident, $name:ident($($asked:expr),*)) => {{
        let Desk { output: Output { variable, low, high }, pairs, stack, index, spare, .. } = $desk;
        unsafe { lent_set!($name, [], $set, [
            $($asked,)*
            variable.pointer(), variable.len(), low.pointer(), low.len(), high.pointer(), high.len(),
            pairs.pointer(), pairs.len(), stack.pointer(), stack.len(), index.pointer(), index.len(),
            spare.variable.pointer(), spare.variable.len(), spare.low.pointer(), spare.low.len(),
            spare.high.pointer(), spare.high.len(),
            $size
        ]) }
    }};
}

impl Desk {
    pub fn new(fault: Fault) -> Desk {
        Desk {
            output: Output::default(),
            pairs: Run::default(),
            stack: Run::default(),
            index: Run::default(),
            map: Run::default(),
            spare: Output::default(),
            bytes: Run::default(),
            chance: Chance::new(77),
            fault,
            numbers: [0; 10],
            related: [0; 11],
            yes: [0; 3],
        }
    }

    /// The ordered, tidy and signing order checks.
    pub fn checks(&mut self, set: &Set) -> [u32; 3] {
        let answers =
            [jp_check_ordered, jp_check_tidy, jp_check_signing].map(|check| unsafe { lent_set!(check, [], set, []) });
        for (yes, answer) in self.yes.iter_mut().zip(answers) {
            *yes += (answer > 0) as u64;
        }
        self.fault.checks(answers)
    }

    fn lend_output(&mut self, lengths: [usize; 3]) {
        let dirt = self.chance.one_of(&DIRT);
        self.output.lend(lengths, dirt, &mut self.chance);
    }

    fn lend_working(&mut self, pairs: usize, stack: usize, index: usize) {
        let dirt = self.chance.one_of(&DIRT);
        self.pairs.lend(pairs, dirt, &mut self.chance);
        self.stack.lend(stack, dirt, &mut self.chance);
        self.index.lend(index, dirt, &mut self.chance);
    }

    pub fn not(&mut self, set: &Set, lengths: [usize; 3]) -> Answer {
        self.lend_output(lengths);
        let Output { variable, low, high } = &mut self.output;
        let mut size = 99;
        let number = unsafe {
            lent_set!(
                jp_not,
                [],
                set,
                [variable.pointer(), variable.len(), low.pointer(), low.len(), high.pointer(), high.len(), &mut size]
            )
        };
        self.tampered(Answer { number, size }, false)
    }

    /// False, true, or the literal of an option.
    pub fn maker(&mut self, n: u16, kind: Maker, lengths: [usize; 3]) -> Answer {
        self.lend_output(lengths);
        let Output { variable: v, low: l, high: h } = &mut self.output;
        let (v, vs, l, ls, h, hs) = (v.pointer(), v.len(), l.pointer(), l.len(), h.pointer(), h.len());
        let mut size = 99;
        let number = unsafe {
            match kind {
                Maker::False => jp_mk_false(n, v, vs, l, ls, h, hs, &mut size),
                Maker::True => jp_mk_true(n, v, vs, l, ls, h, hs, &mut size),
                Maker::Literal(option, value) => jp_mk_literal(n, option, value, v, vs, l, ls, h, hs, &mut size),
            }
        };
        self.tampered(Answer { number, size }, false)
    }

    pub fn operate(&mut self, form: Form, job: &Job, rooms: &Rooms) -> Answer {
        self.lend_output(rooms.output);
        self.lend_working(rooms.pairs, rooms.stack, rooms.index);
        let mut size = 99;
        let number = self.formed(form, job, &mut size);
        self.numbers[number.min(9) as usize] += 1;
        self.tampered(Answer { number, size }, true)
    }

    /// A call of module 7; a run that it is not lent has no place.
    pub fn relate(&mut self, relation: &Relation, set: &Set, loan: &Loan) -> Answer {
        let Loan { rooms, map, spare } = *loan;
        self.lend_output(rooms.output);
        self.lend_working(if relation.restricts() { 0 } else { rooms.pairs }, rooms.stack, rooms.index);
        let dirt = self.chance.one_of(&DIRT);
        self.map.lend(if relation.restricts() { map } else { 0 }, dirt, &mut self.chance);
        self.spare.lend(if relation.picked().is_some() { spare } else { [0; 3] }, dirt, &mut self.chance);
        let mut size = 99;
        let number = self.related(&self.fault.asked_for(relation), set, &mut size);
        self.related[number.min(10) as usize] += 1;
        self.spoilt(relation, Answer { number, size })
    }

    fn related(&mut self, relation: &Relation, set: &Set, size: &mut usize) -> u32 {
        match relation {
            Relation::Exists(v) => related!(self, set, size, jp_var_exists(*v), [pairs, stack, index]),
            Relation::ForAll(v) => related!(self, set, size, jp_var_for_all(*v), [pairs, stack, index]),
            Relation::Select(v, on) => related!(self, set, size, jp_var_select(*v, *on), [pairs, stack, index]),
            Relation::Restrict(values) => {
                related!(self, set, size, jp_restrict(values.as_ptr(), values.len()), [stack, index, map])
            }
            Relation::VarRestrict(v, on) => related!(self, set, size, jp_var_restrict(*v, *on), [stack, index, map]),
            Relation::VarPick(v) => picked!(self, set, size, jp_var_pick(*v)),
            Relation::Pick(list) => picked!(self, set, size, jp_pick(list.as_ptr(), list.len())),
        }
    }

    fn formed(&mut self, form: Form, job: &Job, size: &mut usize) -> u32 {
        let (limit, table, answers) = (job.limit.unwrap_or(NO_LIMIT), job.table.as_ptr(), job.table.len());
        let [l, r, o] = job.flips;
        let mut s = *size;
        let number = match form {
            Form::General => called!(self, job, s, jp_fused_binary_flip_op_with_limit(limit, table, answers; l, r, o)),
            Form::Plain => called!(self, job, s, jp_binary_op(table, answers;)),
            Form::Limited => called!(self, job, s, jp_binary_op_with_limit(limit, table, answers;)),
            Form::Flipped => called!(self, job, s, jp_fused_binary_flip_op(table, answers; l, r, o)),
            Form::Numbered(p) => called!(self, job, s, jp_numbered_op(p;)),
            Form::NumberedLimited(p) => called!(self, job, s, jp_numbered_op_with_limit(limit, p;)),
            Form::NumberedFlipped(p) => called!(self, job, s, jp_numbered_flip_op(p; l, r, o)),
            Form::NumberedGeneral(p) => called!(self, job, s, jp_numbered_flip_op_with_limit(limit, p; l, r, o)),
            Form::Named(AND) => called!(self, job, s, jp_and(;)),
            Form::Named(OR) => called!(self, job, s, jp_or(;)),
            Form::Named(IMP) => called!(self, job, s, jp_imp(;)),
            Form::Named(IFF) => called!(self, job, s, jp_iff(;)),
            Form::Named(XOR) => called!(self, job, s, jp_xor(;)),
            Form::Named(_) => called!(self, job, s, jp_and_not(;)),
            Form::Signing => self.signing_order(job.left, &mut s),
        };
        *size = s;
        number
    }

    fn signing_order(&mut self, set: &Set, size: &mut usize) -> u32 {
        let Desk { output: Output { variable, low, high }, pairs, stack, index, .. } = self;
        unsafe {
            lent_set!(
                jp_signing_order,
                [],
                set,
                [
                    variable.pointer(),
                    variable.len(),
                    low.pointer(),
                    low.len(),
                    high.pointer(),
                    high.len(),
                    pairs.pointer(),
                    pairs.len(),
                    stack.pointer(),
                    stack.len(),
                    index.pointer(),
                    index.len(),
                    size
                ]
            )
        }
    }

    /// The dry run, with "can it hold" and c; `flips` chooses between its two forms.
    pub fn dry(&mut self, flips: bool, job: &Job, pairs: usize, stack: usize) -> (u32, u32, usize) {
        self.lend_working(pairs, stack, 0);
        let (limit, table, answers) = (job.limit.unwrap_or(NO_LIMIT), job.table.as_ptr(), job.table.len());
        let ([l, r, o], a, b) = (job.flips, job.left, job.right);
        let (mut holds, mut count) = (99, 99);
        let (p, ps, s, ss) = (self.pairs.pointer(), self.pairs.len(), self.stack.pointer(), self.stack.len());
        let (av, al, ah) = (a.variable.as_ptr(), a.low.as_ptr(), a.high.as_ptr());
        let (bv, bl, bh) = (b.variable.as_ptr(), b.low.as_ptr(), b.high.as_ptr());
        let (avs, als, ahs) = (a.variable.len(), a.low.len(), a.high.len());
        let (bvs, bls, bhs) = (b.variable.len(), b.low.len(), b.high.len());
        let number = unsafe {
            if flips {
                jp_check_fused_binary_flip_op(
                    limit, table, answers, av, avs, al, als, ah, ahs, bv, bvs, bl, bls, bh, bhs, l, r, o, p, ps, s, ss,
                    &mut holds, &mut count,
                )
            } else {
                jp_check_binary_op(
                    limit, table, answers, av, avs, al, als, ah, ahs, bv, bvs, bl, bls, bh, bhs, p, ps, s, ss,
                    &mut holds, &mut count,
                )
            }
        };
        self.numbers[number.min(9) as usize] += 1;
        self.fault.dry(number, &mut holds, &mut count);
        (number, holds, count)
    }

    /// The number, and how many bytes were written.
    pub fn write(&mut self, set: &Set, room: usize) -> (u32, usize) {
        let dirt = self.chance.one_of(&DIRT);
        self.bytes.lend(room, dirt, &mut self.chance);
        let (bytes, mut written) = (&mut self.bytes, 99);
        let number = unsafe { lent_set!(jp_write_as_bytes, [], set, [bytes.pointer(), bytes.len(), &mut written]) };
        self.fault.byte(&mut self.bytes, number);
        (number, written)
    }

    /// The number, how many records, how many bytes of tail.
    pub fn read(&mut self, file: &[u8], lengths: [usize; 3]) -> (u32, usize, usize) {
        self.lend_output(lengths);
        let Output { variable: v, low: l, high: h } = &mut self.output;
        let (mut records, mut tail) = (99, 99);
        let (v, vs, l, ls, h, hs) = (v.pointer(), v.len(), l.pointer(), l.len(), h.pointer(), h.len());
        let number =
            unsafe { jp_read_as_bytes(file.as_ptr(), file.len(), v, vs, l, ls, h, hs, &mut records, &mut tail) };
        (number, records, tail)
    }

    fn tampered(&mut self, mut answer: Answer, working: bool) -> Answer {
        let mut fault = std::mem::take(&mut self.fault);
        fault.touch(&mut answer, self, working);
        self.fault = fault;
        answer
    }

    fn spoilt(&mut self, relation: &Relation, mut answer: Answer) -> Answer {
        let mut fault = std::mem::take(&mut self.fault);
        fault.relation(&mut answer, self, relation);
        self.fault = fault;
        answer
    }

    /// What is wrong with an answer of negation or another call that needs the output only.
    pub fn judge_output(&self, answer: Answer, number: u32, made: &Set) -> Result<(), String> {
        let want = Answer { number, size: if number == 0 { made.len() } else { 0 } };
        if answer != want {
            return Err(format!("answered {answer:?}, not {want:?}"));
        }
        self.output.fits(number, made).then_some(()).ok_or_else(|| format!("output runs after {number}"))
    }

    /// The same of an operator, whose working runs are looked at as well.
    pub fn judge(&self, answer: Answer, number: u32, made: &Set) -> Result<(), String> {
        self.judge_output(answer, number, made)?;
        self.judge_working(number)
    }

    pub fn judge_working(&self, number: u32) -> Result<(), String> {
        worked("pair run", &self.pairs, number)?;
        worked("stack", &self.stack, number)?;
        worked("index run", &self.index, number)
    }

    /// The same of a call of module 7: the map run and the spare runs too.
    pub fn judge_relation(&self, answer: Answer, number: u32, made: &Set) -> Result<(), String> {
        self.judge(answer, number, made)?;
        worked("map run", &self.map, number)?;
        worked("spare variables", &self.spare.variable, number)?;
        worked("spare low links", &self.spare.low, number)?;
        worked("spare high links", &self.spare.high, number)
    }
}

/// A working run: all zero after any answer but 1 to 6 and 10, as it was after these.
fn worked<T: Cell>(name: &str, run: &Run<T>, number: u32) -> Result<(), String> {
    let fits = if matches!(number, 0 | 7..=9) { run.cleared() } else { run.kept() };
    if fits { Ok(()) } else { Err(format!("{name} after {number}")) }
}

#[derive(Clone, Copy, Debug)]
pub enum Maker {
    False,
    True,
    Literal(u16, bool),
}

/// Where record k starts, and its length.
pub fn record(file: &[u8], k: usize) -> (usize, usize) {
    let mut at = 99;
    let len = unsafe { jp_record(file.as_ptr(), file.len(), k, &mut at) };
    (at, len)
}

pub fn check_table(table: &[u8]) -> u32 {
    unsafe { jp_check_table(table.as_ptr(), table.len()) }
}

/// The nine answers lent as `table`.
pub fn operator(p: u8, table: &mut [u8; TABLE_ANSWERS]) -> u32 {
    unsafe { jp_operator(p, table) }
}

/// The named functions, in the order of `NAMED`.
pub fn function(place: usize, l: u8, r: u8) -> u8 {
    let all = [jp_op_and, jp_op_or, jp_op_imp, jp_op_iff, jp_op_xor, jp_op_and_not];
    all[place](l, r)
}
