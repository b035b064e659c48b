//! The command line.

use crate::explore::explore;
use crate::fault::Fault;
use crate::policy::read_policy;
use crate::program::Stack;
use crate::report::{put, write_report};
use crate::sweep::{sweep, Reply};
use std::io::Write;

const USAGE: &str = "\
Audits a stack of seccomp filters, which stand in order of installation.

Usage: plain audit --policy FILE [--budget N] [--workers 1] [--regions] FILTER..
";

/// What a path's file holds, or None where it can't be read.
type Read<'a> = &'a mut dyn FnMut(&str) -> Option<Vec<u8>>;

/// Why a command wrote no report.
enum Ended {
    Usage,
    Fault(Fault),
}

impl From<Fault> for Ended {
    fn from(fault: Fault) -> Ended {
        Ended::Fault(fault)
    }
}

/// What the words of a command line ask for.
struct Asked {
    policy: Option<String>,
    budget: usize,
    regions: bool,
    filters: Vec<String>,
}

/// The words behind the program's name to the status.
pub fn command(words: &[String], read: Read, out: &mut dyn Write, err: &mut dyn Write) -> u8 {
    if words.iter().any(|word| word == "--help") {
        return put(out, USAGE.as_bytes()).map_or_else(Fault::status, |()| 0);
    }
    match asked_of(words).and_then(|asked| audit(&asked, read, out)) {
        Ok(status) => status,
        Err(Ended::Usage) => {
            let _ = put(err, USAGE.as_bytes());
            4
        }
        Err(Ended::Fault(fault)) => {
            let _ = put(err, format!("error {}\n", fault.0).as_bytes());
            fault.status()
        }
    }
}

fn asked_of(words: &[String]) -> Result<Asked, Ended> {
    let mut asked = Asked { policy: None, budget: 100_000, regions: false, filters: Vec::new() };
    let mut words = words.iter();
    if words.next().map(String::as_str) != Some("audit") {
        return Err(Ended::Usage);
    }
    while let Some(word) = words.next() {
        match word.as_str() {
            "--regions" => asked.regions = true,
            "--policy" => asked.policy = words.next().cloned(),
            "--budget" => asked.budget = number(words.next(), 1_000_000)?,
            "--workers" => {
                number(words.next(), 1)?;
            }
            option if option.starts_with('-') => return Err(Ended::Usage),
            filter => asked.filters.push(filter.to_string()),
        }
    }
    if asked.filters.is_empty() {
        Err(Ended::Usage)
    } else {
        Ok(asked)
    }
}

/// A number from 1 to `most`.
fn number(word: Option<&String>, most: usize) -> Result<usize, Ended> {
    let number = word.and_then(|word| word.parse::<usize>().ok());
    number.filter(|n| (1..=most).contains(n)).ok_or(Ended::Usage)
}

/// Audits the stack; the status tells the worst reply.
fn audit(asked: &Asked, read: Read, out: &mut dyn Write) -> Result<u8, Ended> {
    let path = asked.policy.as_ref().ok_or(Ended::Usage)?;
    let policy = String::from_utf8(read(path).ok_or(Fault(50))?).map_err(|_| Fault(46))?;
    let questions = read_policy(&policy)?;
    let mut files = Vec::new();
    for path in &asked.filters {
        files.push(read(path).ok_or(Fault(50))?);
    }
    let stack = Stack::of_files(&files)?;
    let settled = explore(&stack, asked.budget);
    let replies = sweep(&stack, &settled, &questions);
    write_report(&stack, &settled, &questions, &replies, asked.regions, out)?;
    // The process ends at once, so nothing is given back.
    std::mem::forget(settled);
    Ok(if replies.iter().any(|reply| matches!(reply, Reply::Allowed(_))) {
        1
    } else if replies.contains(&Reply::Unsettled) {
        2
    } else {
        0
    })
}
