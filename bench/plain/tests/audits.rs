//! Audits whose regions, counts and replies were worked by hand.

use std::collections::HashMap;

const NO_EXECVE: &str = "ld [4]; jeq 0xC000003E 1 0; ret 0x80000000; ld [0]; jeq 59 0 1; ret 0x00050001; ret 0x7fff0000";
const NO_X32: &str = "ld [0]; jge 0x40000000 0 1; ret 0x00050026; ret 0x7fff0000";
const DIVIDED: &str = "ld [16]; tax; ld #8; div x; ret a";
const TWO_BITS: &str = "ld [16]; and #3; or #0x50000; ret a";
const SIXTEEN_BITS: &str = "ld [16]; and #0xffff; or #0x50000; ret a";
const BOUNDS: &str = "ld [0]; jge 100 0 3; jge 50 1 0; ret 0; ret 0x7fff0000; ret 0x00050001";
const NUMBERS: &str =
    "ld [0]; jgt 2 4 0; jeq 0 3 0; jeq 1 2 0; jeq 2 1 0; ret 0x80000000; ret 0x7fff0000";
const ANY_OF_TWO_BITS: &str = "ld [0]; jset 5 0 1; ret 0x7fff0000; ret 0x80000000";
const ONE_BIT: &str = "ld [0]; jset 0x40000000 0 1; ret 0x7fff0000; ret 0x80000000";
/// A question about all inputs.
const ANY: &str = "";
const EXECVE: &str = "nr = 59\narch = 0xC000003E";
const X32: &str = "nr = [0x40000000, 0x7fffffff]\narch = 0xC000003E";

fn letters(text: &str) -> Vec<String> {
    text.split(", ").map(|line| line.to_string()).collect()
}

/// The bytes of instructions, each written as `NAME [ARGUMENT [JT JF]]`.
fn asm(text: &str) -> Vec<u8> {
    text.split(';').flat_map(|line| insn(line.trim())).collect()
}

fn insn(line: &str) -> [u8; 8] {
    let parts: Vec<&str> = line.split_whitespace().collect();
    let arg = parts.get(1).copied().unwrap_or("");
    let digits = arg.trim_matches(['#', '[', ']']);
    let k = match digits.strip_prefix("0x") {
        Some(hex) => u32::from_str_radix(hex, 16).unwrap(),
        None => digits.parse().unwrap_or(0),
    };
    let code: u16 = match parts[0] {
        "ld" if arg.starts_with('#') => 0x00,
        "ld" => 0x20,
        "ldx" => 0x01,
        "add" => 0x04,
        "div" => 0x34,
        "or" => 0x44,
        "and" => 0x54,
        "lsh" => 0x64,
        "jeq" => 0x15,
        "jgt" => 0x25,
        "jge" => 0x35,
        "jset" => 0x45,
        "ret" if arg == "a" => 0x16,
        "ret" => 0x06,
        "tax" => 0x07,
        other => panic!("{other}"),
    };
    let code = if arg == "x" { code | 8 } else { code };
    let jump = |place: usize| parts.get(place).map_or(0, |word| word.parse().unwrap());
    let k = k.to_le_bytes();
    [code as u8, (code >> 8) as u8, jump(2), jump(3), k[0], k[1], k[2], k[3]]
}

/// What a report says, taken apart.
struct Said {
    status: u8,
    path: String,
    counts: String,
    replies: Vec<String>,
    regions: Vec<String>,
}

/// The report on filters, of a policy with these questions.
fn audit(filters: &[&str], questions: &[&str], words: &[&str]) -> Said {
    let questions = questions.iter().map(|words| format!("[[question]]\nname = \"q\"\n{words}\n"));
    let policy = "version = 1\n".to_string() + &questions.collect::<String>();
    let names: Vec<String> = (1..=filters.len()).map(|number| number.to_string()).collect();
    let mut files: HashMap<String, Vec<u8>> =
        names.iter().cloned().zip(filters.iter().map(|text| asm(text))).collect();
    files.insert("p".to_string(), policy.into_bytes());
    let options = ["audit", "--policy", "p", "--regions"].iter().chain(words);
    let all: Vec<String> = options.map(|word| word.to_string()).chain(names).collect();
    let (mut out, mut err) = (Vec::new(), Vec::new());
    let mut read = |path: &str| files.get(path).cloned();
    let status = plain::command_line::command(&all, &mut read, &mut out, &mut err);
    assert_eq!(String::from_utf8(err).unwrap(), "");
    said(status, &String::from_utf8(out).unwrap())
}

fn said(status: u8, report: &str) -> Said {
    let (path, counts) = (String::new(), String::new());
    let mut said = Said { status, path, counts, replies: Vec::new(), regions: Vec::new() };
    for line in report.lines() {
        let words: Vec<&str> = line.split(' ').collect();
        match words[0] {
            "filters" => said.path = words[3].to_string(),
            "regions" => said.counts = [1, 3, 5, 7, 9].map(|place| words[place]).join("/"),
            "question" => said.replies.push(words[3..].join(" ")),
            "region" => said.regions.push(words[2..].join(" ")),
            _ => {}
        }
    }
    said
}

/// An example: its beginning in hexadecimal digits, the rest 0.
fn allowed(start: &str) -> String {
    format!("allowed {start}{}", "0".repeat(128 - start.len()))
}

fn chain(count: usize) -> String {
    let tests = (0..count).map(|call| format!("jeq {call} 0 1; ret 0x7fff0000; "));
    "ld [0]; ".to_string() + &tests.collect::<String>() + "ret 0x80000000"
}

#[test]
fn calls_and_ranges() {
    let said = audit(&[NO_EXECVE], &[EXECVE], &[]);
    assert_eq!(said.status, 0);
    assert_eq!(said.replies, ["never"]);
    assert_eq!(said.counts, "3/0/0/2/5");
    assert_eq!(said.regions, letters("F KILL_PROCESS 0, TF ALLOW 0, TT ERRNO 1"));
    let said = audit(&[NO_EXECVE], &[X32], &[]);
    assert_eq!(said.status, 1);
    assert_eq!(said.replies, [allowed("000000403e0000c0")]);
    let said = audit(&[NO_EXECVE], &["arch = 0x40000003"], &[]);
    assert_eq!((said.status, said.replies[0].as_str()), (0, "never"));
}

#[test]
fn budgets() {
    let said = audit(&["ret 0x7fff0005"], &[ANY], &["--budget", "1"]);
    assert_eq!(said.regions, ["- ALLOW 0"]);
    assert_eq!(said.counts, "1/0/0/0/1");
    assert_eq!(said.replies, [allowed("")]);
    let said = audit(&[NO_EXECVE], &[EXECVE, X32, ANY], &["--budget", "1"]);
    assert_eq!(said.counts, "0/2/0/1/1");
    assert_eq!(said.replies, ["unsettled"; 3]);
    assert_eq!(said.status, 2);
}

#[test]
fn precedence() {
    let said = audit(&["ret 0x00050001", "ret 0x00050002"], &[ANY], &[]);
    assert_eq!(said.regions, ["- ERRNO 2"]);
    for pair in [["ret 0", "ret 0x80000000"], ["ret 0x80000000", "ret 0"]] {
        assert_eq!(audit(&pair, &[ANY], &[]).regions, ["- KILL_PROCESS 0"]);
    }
    let said = audit(&["ret 0x7fff0000", "ret 0x00010000"], &[ANY], &[]);
    assert_eq!(said.regions, ["- OTHER:0x00010000 0"]);
    assert_eq!(said.replies, ["never"]);
    let said = audit(&["ret 0x80010005", "ret 0"], &[ANY], &[]);
    assert_eq!(said.regions, ["- OTHER:0x80010000 5"]);
}

#[test]
fn returned_words() {
    let said = audit(&[DIVIDED], &["actions = [\"KILL_THREAD\"]"], &[]);
    assert_eq!(said.counts, "10/0/0/9/19");
    let mut names: Vec<String> =
        (0..9).map(|i| format!("F{:028}{i:04b} KILL_THREAD {i}", 0)).collect();
    for name in &mut names {
        let (bits, rest) = name.split_at(33);
        *name = bits.replace('0', "F").replace('1', "T") + rest;
    }
    names.push("T KILL_THREAD 0".to_string());
    assert_eq!(said.regions, names);
    let said = audit(&[TWO_BITS], &[ANY], &[]);
    assert_eq!(said.counts, "4/0/0/3/7");
    let answers: Vec<_> =
        said.regions.iter().map(|r| r.split_once(' ').unwrap().1.to_string()).collect();
    assert_eq!(answers, letters("ERRNO 0, ERRNO 1, ERRNO 2, ERRNO 3"));
}

#[test]
fn many_regions() {
    let said = audit(&[SIXTEEN_BITS], &[ANY], &["--budget", "131071"]);
    assert_eq!(said.counts, "65536/0/0/65535/131071");
    assert_eq!(said.replies, ["never"]);
    let said = audit(&[SIXTEEN_BITS], &[ANY], &["--budget", "1000"]);
    assert_eq!(said.counts, "496/9/0/504/1000");
    assert_eq!(said.replies, ["unsettled"]);
}

#[test]
fn names_of_regions() {
    let said = audit(&[BOUNDS], &[ANY], &[]);
    assert_eq!(said.regions, letters("F ERRNO 1, TT ALLOW 0"));
    assert_eq!(said.counts, "2/0/0/1/3");
    let said = audit(&[NUMBERS], &[ANY], &[]);
    assert_eq!(said.regions, letters("FFFT ALLOW 0, FFT ALLOW 0, FT ALLOW 0, T ALLOW 0"));
    assert_eq!(said.counts, "4/0/0/3/7");
    assert_eq!(said.replies, [allowed("02000000")]);
    let said = audit(&[NO_EXECVE, NO_X32], &[X32], &[]);
    assert_eq!(said.path, "15");
    assert_eq!(
        said.regions,
        letters("FF KILL_PROCESS 0, FTF ALLOW 0, FTT ERRNO 1, TF KILL_PROCESS 0, TTF ERRNO 38")
    );
    assert_eq!(said.counts, "5/0/0/4/9");
    assert_eq!(said.replies, ["never"]);
    let said = audit(&["ld #1; ldx #40; lsh x; ret a"], &[ANY], &[]);
    let name = "F".repeat(23) + "T" + &"F".repeat(8);
    assert_eq!(said.regions, [format!("{name} KILL_THREAD 256")]);
    assert_eq!(said.counts, "1/0/0/0/1");
    let said = audit(&[ANY_OF_TWO_BITS], &[ANY], &[]);
    assert_eq!(said.regions, letters("F KILL_PROCESS 0, T ALLOW 0"));
    assert_eq!((said.status, said.replies[0].as_str()), (2, "unsettled"));
    assert_eq!(audit(&[ONE_BIT], &[ANY], &[]).replies, [allowed("00000040")]);
}

#[test]
fn stacks_and_symbolic_words() {
    let newer = "ld [0]; jeq 59 0 1; ret 0x00050002; ret 0x7fff0000";
    let said = audit(&["ret 0x00050001", newer], &[ANY], &[]);
    assert_eq!(said.regions, letters("F ERRNO 1, T ERRNO 2"));
    assert_eq!(said.counts, "2/0/0/1/3");
    assert_eq!(said.replies, ["never"]);
    let said = audit(&["ld [16]; tax; ld #8; div x; ret 0x7fff0000"], &[ANY], &[]);
    assert_eq!(said.regions, letters("F ALLOW 0, T KILL_THREAD 0"));
    assert_eq!(said.counts, "2/0/0/1/3");
    assert_eq!(said.replies, [allowed(&("0".repeat(32) + "01"))]);
    let words = ["--budget", "1000"];
    let said = audit(&["ld [0]; ret a"], &[ANY], &words);
    assert_eq!(said.counts, "488/25/0/512/1000");
    assert_eq!(said.replies, ["unsettled"]);
    for (i, region) in said.regions.iter().enumerate() {
        assert!(region.ends_with(&format!(" KILL_THREAD {i}")), "{region}");
    }
}

#[test]
fn facts_of_computed_words() {
    let said =
        audit(&["ld [0]; and #0xff; jgt 255 0 1; ret 0x7fff0000; ret 0x80000000"], &[ANY], &[]);
    assert_eq!(said.regions, ["F KILL_PROCESS 0"]);
    assert_eq!(said.counts, "1/0/0/0/1");
    let said = audit(
        &["ld [0]; jgt 9 3 0; add #10; jge 20 1 0; ret 0x7fff0000; ret 0x80000000"],
        &[ANY],
        &[],
    );
    assert_eq!(said.regions, letters("FF ALLOW 0, T KILL_PROCESS 0"));
    assert_eq!(said.counts, "2/0/0/1/3");
    assert_eq!(said.replies, [allowed("")]);
}

#[test]
fn plain_stacks() {
    let said = audit(
        &["ld [0]; jge 0xffffffff 0 3; jeq 0xffffffff 1 0; ret 0x7fff0000; ret 0x80000000; ret 0x00050001"],
        &[ANY],
        &[],
    );
    assert_eq!(said.regions, letters("F ERRNO 1, TT KILL_PROCESS 0"));
    assert_eq!(said.counts, "2/0/0/1/3");
    let said = audit(&["ld [0]; jgt 0xffffffff 0 1; ret 0x7fff0000; ret 0x80000000"], &[ANY], &[]);
    assert_eq!(said.regions, ["F KILL_PROCESS 0"]);
    assert_eq!(said.counts, "1/0/0/0/1");
    assert_eq!(audit(&[&chain(127)], &[ANY], &["--budget", "255"]).counts, "128/0/0/127/255");
    let said = audit(&[&chain(127)], &[ANY], &["--budget", "254"]);
    assert!(said.counts.contains("/1/0/") && said.counts.ends_with("/254"), "{}", said.counts);
    let said = audit(&[NO_EXECVE], &[EXECVE, X32], &["--budget", "4"]);
    assert_eq!(said.counts, "2/1/0/2/4");
    assert_eq!(said.replies, ["unsettled".to_string(), allowed("000000403e0000c0")]);
}

#[test]
fn single_bit_tests() {
    let text = "ld [0]; jge 5 0 7; jgt 10 6 0; jset 1 5 0; jeq 6 3 0; jeq 8 2 0; jeq 10 1 0; \
                ret 0x80000000; ret 0x7fff0000; ret 0x00050001";
    let said = audit(&[text], &[ANY], &[]);
    assert_eq!(
        said.regions,
        letters(
            "F ERRNO 1, TFFFFT ALLOW 0, TFFFT ALLOW 0, TFFT ALLOW 0, TFT ERRNO 1, TT ERRNO 1"
        )
    );
    assert_eq!(said.counts, "6/0/0/5/11");
    assert_eq!(said.replies, [allowed("0a000000")]);
    assert_eq!(audit(&[ANY_OF_TWO_BITS], &[ANY], &[]).replies, ["unsettled"]);
    assert_eq!(audit(&[ONE_BIT], &[ANY], &[]).replies, [allowed("00000040")]);
}
