//! The symbolic run of a piece, up to its next split or its end.

use crate::facts::Ref;
use crate::piece::{Mode, State};
use crate::program::{fold, Insn, Op, Program, Test};
use crate::worker::{Side, Step, Worker};

impl<'s> Worker<'s> {
    /// The state after the current filter returned `value`.
    fn returned(mut state: State, value: u32) -> State {
        state.answer = fold(state.answer, value);
        if state.filter == 0 {
            state.mode = Mode::Done;
        } else {
            state = State {
                filter: state.filter - 1,
                pc: 0,
                mode: Mode::Run,
                a: Ref::Const(0),
                x: Ref::Const(0),
                scratch: None,
                answer: state.answer,
            };
        }
        state
    }

    /// One call of `advance`: until the current piece splits, settles or is empty.
    pub fn advance(&mut self) -> Step {
        loop {
            let program = &self.stack.programs[self.now.state.filter as usize];
            match self.now.state.mode {
                Mode::Done => {
                    self.flush();
                    return Step::Settled(self.now.state.answer);
                }
                Mode::Bits(left, value) => match self.return_bits(left, value) {
                    Some(step) => return step,
                    None => continue,
                },
                Mode::PastDiv => {
                    let State { a, x, .. } = self.now.state;
                    let Some(node) = self.push(Op::Div, a, x) else { return Step::Empty };
                    self.now.state.a = node;
                    self.now.state.pc += 1;
                    self.now.state.mode = Mode::Run;
                }
                Mode::Run => {}
            }
            if let Some(step) = self.run_filter(program) {
                return step;
            }
        }
    }

    /// Tests the bits of an A that is returned, from the highest one down.
    fn return_bits(&mut self, mut left: u32, mut value: u32) -> Option<Step> {
        let a = self.now.state.a;
        let number = match a {
            Ref::Const(c) => Some(c),
            _ if left == 32 && !self.goes_back(a) => {
                let fact = self.fact_of(a);
                fact.decided().then_some(fact.low)
            }
            _ => None,
        };
        if let (Some(c), 32) = (number, left) {
            self.now.name.push_number(c, &mut self.arenas.segments);
            self.now.state = Self::returned(self.now.state, c);
            return None;
        }
        while left > 0 {
            let bit = 1u32 << (left - 1);
            left -= 1;
            match self.weigh(a, Test::Set, Ref::Const(bit)) {
                Side::True => {
                    self.now.name.push(true, &mut self.arenas.segments);
                    value |= bit;
                }
                Side::False => self.now.name.push(false, &mut self.arenas.segments),
                Side::Neither => return Some(Step::Empty),
                Side::Both => {
                    let state = self.now.state;
                    self.split(State { mode: Mode::Bits(left, value | bit), ..state });
                    self.now.state.mode = Mode::Bits(left, value);
                    return Some(Step::Split);
                }
            }
        }
        self.now.state = Self::returned(self.now.state, value);
        None
    }

    /// Runs the current filter; None where it returned or changed its mode.
    fn run_filter(&mut self, program: &'s Program) -> Option<Step> {
        let State { mut pc, mut a, mut x, .. } = self.now.state;
        macro_rules! save {
            () => {{
                self.now.state.pc = pc;
                self.now.state.a = a;
                self.now.state.x = x;
            }};
        }
        loop {
            match program.insns[pc as usize] {
                Insn::LoadWord(i) => a = Ref::Node(i as u32),
                Insn::LoadConst(k) => a = Ref::Const(k),
                Insn::LoadXConst(k) => x = Ref::Const(k),
                Insn::LoadScratch(k) => a = self.scratch(k),
                Insn::LoadXScratch(k) => x = self.scratch(k),
                Insn::Store(k) => self.store(k, a),
                Insn::StoreX(k) => self.store(k, x),
                Insn::AluK(op, k) => match self.push(op, a, Ref::Const(k)) {
                    Some(node) => a = node,
                    None => return Some(Step::Empty),
                },
                Insn::AluX(op) => {
                    if op == Op::Div {
                        match self.weigh(x, Test::Eq, Ref::Const(0)) {
                            Side::Neither => return Some(Step::Empty),
                            Side::True => {
                                self.now.name.push(true, &mut self.arenas.segments);
                                self.now.state = Self::returned(self.now.state, 0);
                                return None;
                            }
                            Side::False => self.now.name.push(false, &mut self.arenas.segments),
                            Side::Both => {
                                save!();
                                self.split(Self::returned(self.now.state, 0));
                                self.now.state.mode = Mode::PastDiv;
                                return Some(Step::Split);
                            }
                        }
                    }
                    match self.push(op, a, x) {
                        Some(node) => a = node,
                        None => return Some(Step::Empty),
                    }
                }
                Insn::Neg => match self.push(Op::Neg, a, Ref::Const(0)) {
                    Some(node) => a = node,
                    None => return Some(Step::Empty),
                },
                Insn::Jump(to) => {
                    pc = to;
                    continue;
                }
                Insn::TestK(kind, k, jt, jf) => {
                    if kind == Test::Eq {
                        match self.skip_chain(program, pc, a) {
                            Some(Some(to)) => {
                                pc = to;
                                continue;
                            }
                            Some(None) => return Some(Step::Empty),
                            None => {}
                        }
                    }
                    pc = match self.weigh(a, kind, Ref::Const(k)) {
                        Side::True => {
                            self.now.name.push(true, &mut self.arenas.segments);
                            jt
                        }
                        Side::False => {
                            self.now.name.push(false, &mut self.arenas.segments);
                            jf
                        }
                        Side::Neither => return Some(Step::Empty),
                        Side::Both => {
                            save!();
                            let state = self.now.state;
                            self.split(State { pc: jt, ..state });
                            self.now.state.pc = jf;
                            return Some(Step::Split);
                        }
                    };
                    continue;
                }
                Insn::TestX(kind, jt, jf) => {
                    pc = match self.weigh(a, kind, x) {
                        Side::True => {
                            self.now.name.push(true, &mut self.arenas.segments);
                            jt
                        }
                        Side::False => {
                            self.now.name.push(false, &mut self.arenas.segments);
                            jf
                        }
                        Side::Neither => return Some(Step::Empty),
                        Side::Both => {
                            save!();
                            let state = self.now.state;
                            self.split(State { pc: jt, ..state });
                            self.now.state.pc = jf;
                            return Some(Step::Split);
                        }
                    };
                    continue;
                }
                Insn::RetK(k) => {
                    self.now.state = Self::returned(self.now.state, k);
                    return None;
                }
                Insn::RetA => {
                    save!();
                    self.now.state.mode = Mode::Bits(32, 0);
                    return None;
                }
                Insn::Tax => x = a,
                Insn::Txa => a = x,
            }
            pc += 1;
        }
    }

    /// Goes through a chain of JEQ tests at once where A is decided: Some(place) behind it,
    /// Some(None) for a contradiction, None where the chain must be gone through test by test.
    #[inline]
    fn skip_chain(&mut self, program: &Program, pc: u16, a: Ref) -> Option<Option<u16>> {
        let place = program.places[pc as usize];
        if place.rank < 3 {
            return None;
        }
        let fact = self.fact_of(a);
        let chain = &program.chains[place.chain as usize];
        if !fact.decided() {
            // A word beyond all constants of the chain fails each test and learns nothing.
            let (first, last) = (chain.tests[0].0, chain.tests[chain.tests.len() - 1].0);
            let beyond = fact.low > last || fact.high < first;
            let quiet = matches!(a, Ref::Node(n) if n < 16);
            if beyond && quiet {
                self.now.name.push_false(place.rank, &mut self.arenas.segments);
                return Some(Some(chain.exit));
            }
            return None;
        }
        // Bits go back in the same way at each test, so one look is enough.
        if self.goes_back(a) && !self.learn(a, Test::Eq, Ref::Const(fact.low), true) {
            return Some(None);
        }
        let arena = &mut self.arenas.segments;
        Some(Some(match chain.find(fact.low, place.rank) {
            Some((rank, to)) => {
                self.now.name.push_false(place.rank - rank, arena);
                self.now.name.push(true, arena);
                to
            }
            None => {
                self.now.name.push_false(place.rank, arena);
                chain.exit
            }
        }))
    }

    pub fn scratch(&self, k: u8) -> Ref {
        self.now.state.scratch.expect("stored before: checked")[k as usize]
    }

    pub fn store(&mut self, k: u8, value: Ref) {
        let mut scratch = self.now.state.scratch.copied().unwrap_or_default();
        scratch[k as usize] = value;
        self.now.state.scratch = Some(self.arenas.scratch.put(scratch));
    }
}
