//! The report.

use crate::explore::Settled;
use crate::fault::Fault;
use crate::program::{Input, Stack};
use crate::sweep::{Question, Reply};
use std::io::Write;

/// The digits of an input.
pub fn hex(input: &Input) -> String {
    let mut text = String::with_capacity(128);
    for byte in input.iter().flat_map(|word| word.to_le_bytes()) {
        text.push(char::from_digit((byte >> 4) as u32, 16).expect("a digit"));
        text.push(char::from_digit((byte & 15) as u32, 16).expect("a digit"));
    }
    text
}

/// Writes all bytes.
pub fn put(out: &mut dyn Write, mut bytes: &[u8]) -> Result<(), Fault> {
    while !bytes.is_empty() {
        match out.write(bytes) {
            Ok(0) | Err(_) => return Err(Fault(51)),
            Ok(count) => bytes = &bytes[count..],
        }
    }
    Ok(())
}

/// Writes the report of an audit.
pub fn write_report(
    stack: &Stack,
    settled: &Settled,
    questions: &[Question],
    replies: &[Reply],
    regions: bool,
    out: &mut dyn Write,
) -> Result<(), Fault> {
    let (filters, path) = (stack.programs.len(), stack.path_length());
    let count = questions.len();
    let mut head =
        format!("seccomp_audit report 2\nfilters {filters} path {path} questions {count}\n");
    head += &format!(
        "regions {} open {} emptied {} splits {} commits {}\n",
        settled.regions.len(), settled.open, settled.emptied, settled.splits, settled.commits
    );
    let mut counts = [0; 3];
    for (i, (question, reply)) in questions.iter().zip(replies).enumerate() {
        head += &format!("question {} {} ", i + 1, question.name);
        match reply {
            Reply::Never => {
                counts[0] += 1;
                head += "never\n";
            }
            Reply::Allowed(input) => {
                counts[1] += 1;
                head += &format!("allowed {}\n", hex(input));
            }
            Reply::Unsettled => {
                counts[2] += 1;
                head += "unsettled\n";
            }
        }
    }
    let mut text = head.into_bytes();
    if regions {
        for (i, region) in settled.regions.iter().enumerate() {
            text.extend(format!("region {} ", i + 1).into_bytes());
            region.name.print(&mut text);
            text.push(b' ');
            text.extend(region.answer.text().into_bytes());
            text.push(b'\n');
            if text.len() > 1 << 16 {
                put(out, &text)?;
                text.clear();
            }
        }
    }
    let [never, allowed, unsettled] = counts;
    text.extend(format!("total never {never} allowed {allowed} unsettled {unsettled}\n").bytes());
    put(out, &text)
}
