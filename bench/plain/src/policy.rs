//! The policy file.

use crate::fault::Fault;
use crate::program::{ACTIONS, OTHER};
use crate::sweep::Question;
use crate::toml::{parse, Table, Value};

const WORDS: [&str; 16] = [
    "nr", "arch", "ip_lo", "ip_hi", "arg0_lo", "arg0_hi", "arg1_lo", "arg1_hi", "arg2_lo",
    "arg2_hi", "arg3_lo", "arg3_hi", "arg4_lo", "arg4_hi", "arg5_lo", "arg5_hi",
];
const MOST_QUESTIONS: usize = 256;
const FULL: i64 = u32::MAX as i64;

/// A word's value as it stands in the file: low, high, mask, value.
type Demand = (i64, i64, i64, i64);

/// The questions of a policy, or the first fault.
pub fn read_policy(text: &str) -> Result<Vec<Question>, Fault> {
    let tree = parse(text).ok_or(Fault(46))?;
    let version = match tree.get("version") {
        Some(Value::Integer(1)) => 1,
        Some(Value::Integer(2)) => 2,
        _ => return Err(Fault(40)),
    };
    if tree.keys().any(|key| key != "version" && key != "question") {
        return Err(Fault(41));
    }
    let mut tables: Vec<&Table> = Vec::new();
    match tree.get("question") {
        None => {}
        Some(Value::Array(items)) => {
            for item in items {
                match item {
                    Value::Table(table) => tables.push(table),
                    _ => return Err(Fault(41)),
                }
            }
        }
        Some(_) => return Err(Fault(41)),
    }
    if tables.is_empty() || tables.len() > MOST_QUESTIONS {
        return Err(Fault(45));
    }
    tables.iter().map(|table| read_question(table, version).map_err(Fault)).collect()
}

/// A question, or the number of its fault.
fn read_question(table: &Table, version: i64) -> Result<Question, u16> {
    if table.keys().any(|key| key != "name" && key != "actions" && !WORDS.contains(&key.as_str())) {
        return Err(41);
    }
    let Some(Value::Text(name)) = table.get("name") else { return Err(41) };
    let mut demands: [Demand; 16] = [(0, FULL, 0, 0); 16];
    for (i, word) in WORDS.iter().enumerate() {
        if let Some(value) = table.get(*word) {
            demands[i] = read_word(value, version).ok_or(41u16)?;
        }
    }
    let actions = match table.get("actions") {
        None => None,
        Some(Value::Array(items)) => {
            let names: Option<Vec<&str>> = items
                .iter()
                .map(|item| if let Value::Text(text) = item { Some(text.as_str()) } else { None })
                .collect();
            Some(names.ok_or(41u16)?)
        }
        Some(_) => return Err(41),
    };
    if name.is_empty() || name.len() > 64 || !name.bytes().all(|b| (0x21..=0x7e).contains(&b)) {
        return Err(44);
    }
    let fits = |n: i64| (0..=FULL).contains(&n);
    if demands.iter().any(|&(low, high, mask, value)| {
        !(fits(low) && fits(high) && fits(mask) && fits(value)) || low > high
    }) {
        return Err(42);
    }
    if demands.iter().any(|&(_, _, mask, value)| value & !mask != 0) {
        return Err(48);
    }
    Ok(Question {
        name: name.clone(),
        ranges: demands.map(|(low, high, _, _)| (low as u32, high as u32)),
        masks: demands.map(|(_, _, mask, value)| (mask as u32, value as u32)),
        actions: match actions {
            None => 1 << 6 | 1 << 7,
            Some(names) => read_actions(&names).ok_or(43u16)?,
        },
    })
}

/// What is asked of a word.
fn read_word(value: &Value, version: i64) -> Option<Demand> {
    match value {
        Value::Integer(n) => Some((*n, *n, 0, 0)),
        Value::Array(items) => match items[..] {
            [Value::Integer(low), Value::Integer(high)] => Some((low, high, 0, 0)),
            _ => None,
        },
        Value::Table(table) if version == 2 => {
            if table.keys().any(|key| !["mask", "value", "low", "high"].contains(&key.as_str())) {
                return None;
            }
            let number = |key: &str, absent: Option<i64>| match table.get(key) {
                None => absent,
                Some(Value::Integer(n)) => Some(*n),
                Some(_) => None,
            };
            Some((
                number("low", Some(0))?,
                number("high", Some(FULL))?,
                number("mask", None)?,
                number("value", None)?,
            ))
        }
        _ => None,
    }
}

/// The actions that are named, one bit each.
fn read_actions(names: &[&str]) -> Option<u16> {
    if names.is_empty() {
        return None;
    }
    names.iter().try_fold(0, |set, name| {
        let place = match ACTIONS.iter().position(|action| action.0 == *name) {
            Some(place) => place,
            None if *name == "OTHER" => OTHER,
            None => return None,
        };
        Some(set | 1 << place)
    })
}
