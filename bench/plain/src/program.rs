//! Instructions, lawful programs and stacks, the trace of a run, answers.

use crate::fault::Fault;

const MOST_INSTRUCTIONS: usize = 4096;
const MOST_FILTERS: usize = 64;
const LONGEST_PATH: usize = 32768;

/// An instruction as it stands in a file.
#[derive(Clone, Copy, PartialEq, Eq, Debug)]
pub struct Raw {
    pub code: u16,
    pub jt: u8,
    pub jf: u8,
    pub k: u32,
}

/// The instructions of a file.
pub fn decode(bytes: &[u8]) -> Result<Vec<Raw>, Fault> {
    if bytes.len() % 8 != 0 {
        return Err(Fault(10));
    }
    if bytes.is_empty() {
        return Err(Fault(11));
    }
    if bytes.len() / 8 > MOST_INSTRUCTIONS {
        return Err(Fault(12));
    }
    Ok(bytes
        .chunks_exact(8)
        .map(|b| Raw {
            code: u16::from_le_bytes([b[0], b[1]]),
            jt: b[2],
            jf: b[3],
            k: u32::from_le_bytes([b[4], b[5], b[6], b[7]]),
        })
        .collect())
}

/// What an instruction computes.
#[derive(Clone, Copy, PartialEq, Eq, Debug)]
pub enum Op {
    Add,
    Sub,
    Mul,
    Div,
    Or,
    And,
    Lsh,
    Rsh,
    Xor,
    Neg,
}

/// What a jump tests.
#[derive(Clone, Copy, PartialEq, Eq, Debug)]
pub enum Test {
    Eq,
    Gt,
    Ge,
    Set,
}

/// Jump targets are absolute.
#[derive(Clone, Copy, PartialEq, Eq, Debug)]
pub enum Insn {
    LoadWord(u8),
    LoadConst(u32),
    LoadScratch(u8),
    LoadXConst(u32),
    LoadXScratch(u8),
    Store(u8),
    StoreX(u8),
    AluK(Op, u32),
    AluX(Op),
    Neg,
    Jump(u16),
    TestK(Test, u32, u16, u16),
    TestX(Test, u16, u16),
    RetK(u32),
    RetA,
    Tax,
    Txa,
}

/// Value of an operation on numbers; division by 0 gives 0 (the run never asks for it).
#[inline]
pub fn compute(op: Op, a: u32, b: u32) -> u32 {
    match op {
        Op::Add => a.wrapping_add(b),
        Op::Sub => a.wrapping_sub(b),
        Op::Mul => a.wrapping_mul(b),
        Op::Div => a.checked_div(b).unwrap_or(0),
        Op::Or => a | b,
        Op::And => a & b,
        Op::Lsh => a << (b % 32),
        Op::Rsh => a >> (b % 32),
        Op::Xor => a ^ b,
        Op::Neg => a.wrapping_neg(),
    }
}

/// Whether a test holds of two numbers.
#[inline]
pub fn test(test: Test, a: u32, b: u32) -> bool {
    match test {
        Test::Eq => a == b,
        Test::Gt => a > b,
        Test::Ge => a >= b,
        Test::Set => a & b != 0,
    }
}

/// A place in a false chain: a row of JEQ K tests, each the false target of the one before.
/// `rank` falls along the chain, the last test has rank 1.
#[derive(Clone, Copy, Default)]
pub struct ChainPlace {
    pub chain: u32,
    pub rank: u32,
}

/// The tests of a false chain, in an order by which a number is found.
#[derive(Default)]
pub struct Chain {
    /// (constant, rank, true target), by constant, then by falling rank.
    pub tests: Vec<(u32, u32, u16)>,
    /// Where the last test's false side goes.
    pub exit: u16,
}

/// A lawful program.
pub struct Program {
    pub insns: Vec<Insn>,
    /// For each JEQ K its chain; rank 0 for all other instructions.
    pub places: Vec<ChainPlace>,
    pub chains: Vec<Chain>,
}

/// The operation of a code.
fn alu(code: u16) -> Option<Op> {
    Some(match code & 0xf0 {
        0x00 => Op::Add,
        0x10 => Op::Sub,
        0x20 => Op::Mul,
        0x30 => Op::Div,
        0x40 => Op::Or,
        0x50 => Op::And,
        0x60 => Op::Lsh,
        0x70 => Op::Rsh,
        0xa0 => Op::Xor,
        _ => return None,
    })
}

/// One instruction at `at` of a program of `len` instructions: 20, then 21, then 22.
fn read_insn(raw: Raw, at: usize, len: usize) -> Result<Insn, u16> {
    let k = raw.k;
    let target = |step: u64| -> Result<u16, u16> {
        let to = at as u64 + 1 + step;
        if to < len as u64 {
            Ok(to as u16)
        } else {
            Err(22)
        }
    };
    let scratch = || if k < 16 { Ok(k as u8) } else { Err(21u16) };
    Ok(match raw.code {
        0x20 if k < 64 && k % 4 == 0 => Insn::LoadWord((k / 4) as u8),
        0x20 => return Err(21),
        0x00 => Insn::LoadConst(k),
        0x60 => Insn::LoadScratch(scratch()?),
        0x80 => Insn::LoadConst(64),
        0x01 => Insn::LoadXConst(k),
        0x61 => Insn::LoadXScratch(scratch()?),
        0x81 => Insn::LoadXConst(64),
        0x02 => Insn::Store(scratch()?),
        0x03 => Insn::StoreX(scratch()?),
        0x84 => Insn::Neg,
        0x05 => Insn::Jump(target(k as u64)?),
        0x06 => Insn::RetK(k),
        0x16 => Insn::RetA,
        0x07 => Insn::Tax,
        0x87 => Insn::Txa,
        0x15 | 0x25 | 0x35 | 0x45 | 0x1d | 0x2d | 0x3d | 0x4d => {
            let test = match raw.code & 0xf0 {
                0x10 => Test::Eq,
                0x20 => Test::Gt,
                0x30 => Test::Ge,
                _ => Test::Set,
            };
            let (jt, jf) = (target(raw.jt as u64)?, target(raw.jf as u64)?);
            if raw.code & 8 == 0 {
                Insn::TestK(test, k, jt, jf)
            } else {
                Insn::TestX(test, jt, jf)
            }
        }
        code if code & !0xf8 == 0x04 && alu(code).is_some() => {
            let op = alu(code).expect("known");
            if code & 8 != 0 {
                Insn::AluX(op)
            } else {
                match op {
                    Op::Div if k == 0 => return Err(21),
                    Op::Lsh | Op::Rsh if k >= 32 => return Err(21),
                    _ => Insn::AluK(op, k),
                }
            }
        }
        _ => return Err(20),
    })
}

/// A lawful program, or the first fault.
pub fn check(raws: &[Raw]) -> Result<Program, Fault> {
    let mut insns = Vec::with_capacity(raws.len());
    for (at, &raw) in raws.iter().enumerate() {
        insns.push(read_insn(raw, at, raws.len()).map_err(Fault)?);
    }
    if !matches!(insns.last(), Some(Insn::RetK(_) | Insn::RetA)) {
        return Err(Fault(23));
    }
    // Jumps go forward only: one pass meets the masks of all ways into a place.
    let mut masks: Vec<Option<u16>> = vec![None; insns.len()];
    masks[0] = Some(0);
    for at in 0..insns.len() {
        let Some(mask) = masks[at] else { continue };
        let mut flow = |to: usize, mask: u16| {
            masks[to] = Some(masks[to].map_or(mask, |old| old & mask));
        };
        match insns[at] {
            Insn::LoadScratch(k) | Insn::LoadXScratch(k) => {
                if mask >> k & 1 == 0 {
                    return Err(Fault(24));
                }
                flow(at + 1, mask)
            }
            Insn::Store(k) | Insn::StoreX(k) => flow(at + 1, mask | 1 << k),
            Insn::Jump(to) => flow(to as usize, mask),
            Insn::TestK(_, _, jt, jf) | Insn::TestX(_, jt, jf) => {
                flow(jt as usize, mask);
                flow(jf as usize, mask);
            }
            Insn::RetK(_) | Insn::RetA => {}
            _ => flow(at + 1, mask),
        }
    }
    Ok(with_chains(insns))
}

/// Finds the false chains, from the last instruction to the first.
fn with_chains(insns: Vec<Insn>) -> Program {
    let mut places = vec![ChainPlace::default(); insns.len()];
    let mut chains: Vec<Chain> = Vec::new();
    let mut heads: Vec<u32> = Vec::new();
    for at in (0..insns.len()).rev() {
        let Insn::TestK(Test::Eq, k, jt, jf) = insns[at] else { continue };
        let mut next = jf;
        while let Insn::Jump(to) = insns[next as usize] {
            next = to;
        }
        let ahead = places[next as usize];
        let place = if ahead.rank > 0 && heads[ahead.chain as usize] == ahead.rank {
            heads[ahead.chain as usize] += 1;
            ChainPlace { chain: ahead.chain, rank: ahead.rank + 1 }
        } else {
            chains.push(Chain { tests: Vec::new(), exit: next });
            heads.push(1);
            ChainPlace { chain: chains.len() as u32 - 1, rank: 1 }
        };
        places[at] = place;
        chains[place.chain as usize].tests.push((k, place.rank, jt));
    }
    for chain in &mut chains {
        chain.tests.sort_unstable_by_key(|&(k, rank, _)| (k, u32::MAX - rank));
    }
    Program { insns, places, chains }
}

impl Chain {
    /// The first test at or behind `rank` whose constant is `number`.
    #[inline]
    pub fn find(&self, number: u32, rank: u32) -> Option<(u32, u16)> {
        let from =
            self.tests.partition_point(|&(k, r, _)| (k, u32::MAX - r) < (number, u32::MAX - rank));
        match self.tests.get(from) {
            Some(&(k, r, to)) if k == number => Some((r, to)),
            _ => None,
        }
    }
}

/// A lawful stack.
pub struct Stack {
    /// In order of installation.
    pub programs: Vec<Program>,
}

impl Stack {
    /// The length that the kernel limits: each filter but the first one counts four more.
    pub fn path_length(&self) -> usize {
        self.programs.iter().map(|p| p.insns.len() + 4).sum::<usize>() - 4
    }
    /// The stack of files, in order of installation, if it is lawful.
    pub fn of_files(files: &[Vec<u8>]) -> Result<Stack, Fault> {
        if files.is_empty() {
            return Err(Fault(25));
        }
        if files.len() > MOST_FILTERS {
            return Err(Fault(26));
        }
        let read = |bytes: &Vec<u8>| decode(bytes).and_then(|raws| check(&raws));
        let stack = Stack { programs: files.iter().map(read).collect::<Result<_, _>>()? };
        if stack.path_length() > LONGEST_PATH {
            return Err(Fault(27));
        }
        Ok(stack)
    }
}

pub const ALLOW: u32 = 0x7fff0000;

/// An action, and the data that comes with it.
#[derive(Clone, Copy, PartialEq, Eq, Debug)]
pub struct Answer {
    pub action: u32,
    pub data: u16,
}

/// The answer before any filter has run.
pub const START: Answer = Answer { action: ALLOW, data: 0 };

/// The actions that have names.
pub const ACTIONS: [(&str, u32); 8] = [
    ("KILL_PROCESS", 0x80000000),
    ("KILL_THREAD", 0),
    ("TRAP", 0x00030000),
    ("ERRNO", 0x00050000),
    ("USER_NOTIF", 0x7fc00000),
    ("TRACE", 0x7ff00000),
    ("LOG", 0x7ffc0000),
    ("ALLOW", ALLOW),
];
/// Stands for the actions that have none.
pub const OTHER: usize = 8;

/// The answer after one more filter has returned `value`.
#[inline]
pub fn fold(so_far: Answer, value: u32) -> Answer {
    let action = value & 0xffff0000;
    if (action as i32) < so_far.action as i32 {
        Answer { action, data: value as u16 }
    } else {
        so_far
    }
}

impl Answer {
    /// Place of the action among the eight named ones, or `OTHER`.
    #[inline]
    pub fn kind(&self) -> usize {
        ACTIONS.iter().position(|&(_, value)| value == self.action).unwrap_or(OTHER)
    }
    pub fn text(&self) -> String {
        match self.kind() {
            OTHER => format!("OTHER:0x{:08x} {}", self.action, self.data),
            kind => format!("{} {}", ACTIONS[kind].0, self.data),
        }
    }
}

/// The words that a filter sees.
pub type Input = [u32; 16];

/// Runs one program; `entry` is told each entry of the trace and may end the run (None).
pub fn run_traced(
    program: &Program,
    input: &Input,
    entry: &mut impl FnMut(bool) -> bool,
) -> Option<u32> {
    let (mut a, mut x, mut scratch, mut pc) = (0u32, 0u32, [0u32; 16], 0usize);
    loop {
        let mut next = pc + 1;
        match program.insns[pc] {
            Insn::LoadWord(i) => a = input[i as usize],
            Insn::LoadConst(k) => a = k,
            Insn::LoadScratch(k) => a = scratch[k as usize],
            Insn::LoadXConst(k) => x = k,
            Insn::LoadXScratch(k) => x = scratch[k as usize],
            Insn::Store(k) => scratch[k as usize] = a,
            Insn::StoreX(k) => scratch[k as usize] = x,
            Insn::AluK(op, k) => a = compute(op, a, k),
            Insn::AluX(op) => {
                if op == Op::Div {
                    if !entry(x == 0) {
                        return None;
                    }
                    if x == 0 {
                        return Some(0);
                    }
                }
                a = compute(op, a, x)
            }
            Insn::Neg => a = a.wrapping_neg(),
            Insn::Jump(to) => next = to as usize,
            Insn::TestK(..) | Insn::TestX(..) => {
                let (kind, w, jt, jf) = match program.insns[pc] {
                    Insn::TestK(kind, k, jt, jf) => (kind, k, jt, jf),
                    Insn::TestX(kind, jt, jf) => (kind, x, jt, jf),
                    _ => unreachable!(),
                };
                let result = test(kind, a, w);
                if !entry(result) {
                    return None;
                }
                next = if result { jt } else { jf } as usize;
            }
            Insn::RetK(k) => return Some(k),
            Insn::RetA => {
                for bit in (0..32).rev() {
                    if !entry(a >> bit & 1 == 1) {
                        return None;
                    }
                }
                return Some(a);
            }
            Insn::Tax => x = a,
            Insn::Txa => a = x,
        }
        pc = next;
    }
}

/// Whether `name` is a beginning of the trace of `input`.
pub fn trace_begins(stack: &Stack, input: &Input, name: &[bool]) -> bool {
    let mut at = 0;
    let mut differs = false;
    for program in stack.programs.iter().rev() {
        let ended = run_traced(program, input, &mut |value| {
            if at == name.len() {
                return false;
            }
            differs = name[at] != value;
            at += 1;
            !differs
        });
        if ended.is_none() {
            break;
        }
    }
    !differs && at == name.len()
}
