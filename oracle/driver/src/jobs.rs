//! The job language: words in, the crate's answer out as text.
use crate::arrays::{closure, known, number};
use biodivine_lib_bdd::{Bdd, BddNode, BddVariable, BddVariableSet, op_function};
use std::panic::{AssertUnwindSafe, catch_unwind};

type Operator = fn(Option<bool>, Option<bool>) -> Option<bool>;

/// `what` where the line is no job, `panic` where the crate gave up on it.
pub fn answer(line: &str) -> String {
    let words: Vec<&str> = line.split(' ').collect();
    match catch_unwind(AssertUnwindSafe(|| job(&words))) {
        Ok(Some(answer)) => answer,
        Ok(None) => "what".to_string(),
        Err(_) => "panic".to_string(),
    }
}

fn job(words: &[&str]) -> Option<String> {
    let text = match *words {
        ["false", n] => options(n)?.mk_false().to_string(),
        ["true", n] => options(n)?.mk_true().to_string(),
        ["literal", n, v, b] => options(n)?.mk_literal(variable(v)?, bit(b)?).to_string(),
        ["bytes", set] => hex(&read_set(set)?.to_bytes()),
        ["read", bytes] => Bdd::from_bytes(&mut unhex(bytes)?.as_slice()).to_string(),
        ["not", set] => read_set(set)?.not().to_string(),
        ["apply", ref rest @ ..] => apply(rest)?,
        ["dry", ref rest @ ..] => dry(rest)?,
        ["op", name, left, right] => {
            Bdd::binary_op(&read_set(left)?, &read_set(right)?, operator(name)?).to_string()
        }
        ["function", name, a, b] => number(operator(name)?(digit(a)?, digit(b)?)).to_string(),
        ["exists", v, set] => read_set(set)?.var_exists(variable(v)?).to_string(),
        ["forall", v, set] => read_set(set)?.var_for_all(variable(v)?).to_string(),
        ["select", v, b, set] => read_set(set)?.var_select(variable(v)?, bit(b)?).to_string(),
        ["restrict", values, set] => read_set(set)?.restrict(&valuation(values)?).to_string(),
        ["var_restrict", v, b, set] => read_set(set)?
            .var_restrict(variable(v)?, bit(b)?)
            .to_string(),
        ["pick", list, set] => read_set(set)?.pick(&variables(list)?).to_string(),
        ["var_pick", v, set] => read_set(set)?.var_pick(variable(v)?).to_string(),
        ["validate", set] => verdict(read_set(set)?.validate()),
        ["nodes", set] => verdict(from_nodes(read_set(set)?)),
        _ => return None,
    };
    Some(text)
}

/// An operator's or dry run's words: table, three flips, limit, two sets.
struct Step {
    table: [u8; 9],
    flips: [Option<BddVariable>; 3],
    limit: Option<usize>,
    sets: [Bdd; 2],
}

fn step(words: &[&str]) -> Option<Step> {
    let [table, left_flip, right_flip, out_flip, limit, left, right] = *words else {
        return None;
    };
    Some(Step {
        table: read_table(table)?,
        flips: [flip(left_flip)?, flip(right_flip)?, flip(out_flip)?],
        limit: if limit == "-" {
            None
        } else {
            Some(limit.parse().ok()?)
        },
        sets: [read_set(left)?, read_set(right)?],
    })
}

fn apply(words: &[&str]) -> Option<String> {
    let Step {
        table,
        flips,
        limit,
        sets,
    } = step(words)?;
    let (left, right) = ((&sets[0], flips[0]), (&sets[1], flips[1]));
    let result = match limit {
        None => Some(Bdd::fused_binary_flip_op(
            left,
            right,
            flips[2],
            closure(table),
        )),
        Some(limit) => {
            Bdd::fused_binary_flip_op_with_limit(limit, left, right, flips[2], closure(table))
        }
    };
    Some(result.map_or("over".to_string(), |set| set.to_string()))
}

fn dry(words: &[&str]) -> Option<String> {
    let Step {
        table,
        flips,
        limit,
        sets,
    } = step(words)?;
    let (left, right) = ((&sets[0], flips[0]), (&sets[1], flips[1]));
    let limit = limit.unwrap_or(usize::MAX);
    let result = Bdd::check_fused_binary_flip_op(limit, left, right, flips[2], closure(table));
    let shown = |(holds, count): (bool, usize)| format!("{} {count}", u8::from(holds));
    Some(result.map_or("over".to_string(), shown))
}

fn operator(name: &str) -> Option<Operator> {
    match name {
        "and" => Some(op_function::and),
        "or" => Some(op_function::or),
        "imp" => Some(op_function::imp),
        "iff" => Some(op_function::iff),
        "xor" => Some(op_function::xor),
        "and_not" => Some(op_function::and_not),
        _ => None,
    }
}

fn from_nodes(set: Bdd) -> Result<(), String> {
    let nodes: Vec<BddNode> = set.to_nodes();
    Bdd::from_nodes(&nodes).map(|_| ())
}

fn verdict(result: Result<(), String>) -> String {
    if result.is_ok() { "ok" } else { "bad" }.to_string()
}

fn options(n: &str) -> Option<BddVariableSet> {
    Some(BddVariableSet::new_anonymous(n.parse().ok()?))
}

/// The crate's own reader, so that its habits with text are seen as well.
fn read_set(text: &str) -> Option<Bdd> {
    let text = text.starts_with('|').then_some(text)?;
    Bdd::read_as_string(&mut text.as_bytes()).ok()
}

fn variable(text: &str) -> Option<BddVariable> {
    Some(BddVariable::from_index(text.parse().ok()?))
}

fn variables(list: &str) -> Option<Vec<BddVariable>> {
    if list == "-" {
        return Some(Vec::new());
    }
    list.split(',').map(variable).collect()
}

fn flip(text: &str) -> Option<Option<BddVariable>> {
    if text == "-" {
        Some(None)
    } else {
        variable(text).map(Some)
    }
}

fn bit(text: &str) -> Option<bool> {
    digit(text)?
}

fn digit(text: &str) -> Option<Option<bool>> {
    matches!(text, "0" | "1" | "2").then(|| known(text.as_bytes()[0] - b'0'))
}

/// Digits 0, 1, 2 of any length, `-` for none.
fn digits(text: &str) -> Option<Vec<u8>> {
    if text == "-" {
        return Some(Vec::new());
    }
    text.bytes()
        .map(|byte| matches!(byte, b'0'..=b'2').then(|| byte - b'0'))
        .collect()
}

fn read_table(text: &str) -> Option<[u8; 9]> {
    digits(text)?.try_into().ok()
}

fn valuation(text: &str) -> Option<Vec<(BddVariable, bool)>> {
    let values = digits(text)?.into_iter().enumerate();
    let set = |(place, value)| known(value).map(|value| (BddVariable::from_index(place), value));
    Some(values.filter_map(set).collect())
}

fn hex(bytes: &[u8]) -> String {
    if bytes.is_empty() {
        return "-".to_string();
    }
    bytes.iter().map(|byte| format!("{byte:02x}")).collect()
}

fn unhex(text: &str) -> Option<Vec<u8>> {
    if text == "-" {
        return Some(Vec::new());
    }
    let whole = text.len() % 2 == 0 && text.bytes().all(|byte| byte.is_ascii_hexdigit());
    let pair = |place: usize| u8::from_str_radix(&text[place..place + 2], 16).ok();
    whole.then(|| (0..text.len()).step_by(2).map(pair).collect())?
}
