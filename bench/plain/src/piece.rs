//! Pieces and regions: what is known of an input's words, and where a run stands.

use crate::excluded::Excluded;
use crate::facts::{Fact, Ref, NOTHING};
use crate::name::Name;
use crate::nodes::{Base, Computed};
use crate::program::{Answer, Stack, START};
use crate::shared::Shared;

/// Where in an instruction a run stands.
#[derive(Clone, Copy)]
pub enum Mode {
    Run,
    /// The test of a DIV X gave false.
    PastDiv,
    /// In a RET A: entries that are left, bits so far.
    Bits(u32, u32),
    /// The oldest filter has returned.
    Done,
}

/// Where the run of a piece stands, with the symbolic words that it has.
#[derive(Clone, Copy)]
pub struct State {
    pub filter: u16,
    pub pc: u16,
    pub mode: Mode,
    pub a: Ref,
    pub x: Ref,
    pub scratch: Option<&'static [Ref; 16]>,
    pub answer: Answer,
}

/// A set of inputs: what is known of them, and where their run stands.
#[derive(Clone, Copy)]
pub struct Piece {
    pub words: [Fact; 16],
    pub excluded: Excluded,
    pub facts: Shared<Fact>,
    pub computed: Shared<Computed>,
    /// Words that are operands of computed nodes.
    pub used: u16,
    /// Words of which something may be known.
    pub known: u16,
    pub name: Name,
    pub state: State,
}

/// A settled piece.
pub struct Region {
    /// Words of which something is known; their facts in order.
    pub known: u16,
    pub used: u16,
    pub words: &'static [Fact],
    pub excluded: Excluded,
    pub facts: Shared<Fact>,
    pub computed: Shared<Computed>,
    pub name: Name,
    pub answer: Answer,
}

impl Base for Piece {
    #[inline]
    fn fact(&self, node: u32) -> Fact {
        if node < 16 {
            self.words[node as usize]
        } else {
            self.facts.get(node as usize - 16)
        }
    }
    fn nodes(&self) -> u32 {
        16 + self.computed.len
    }
    fn computed(&self, node: u32) -> Computed {
        self.computed.get(node as usize - 16)
    }
}

impl Base for Region {
    #[inline]
    fn fact(&self, node: u32) -> Fact {
        if node >= 16 {
            return self.facts.get(node as usize - 16);
        }
        if self.known >> node & 1 == 0 {
            return NOTHING;
        }
        self.words[(self.known & ((1 << node) - 1)).count_ones() as usize]
    }
    fn nodes(&self) -> u32 {
        16 + self.computed.len
    }
    fn computed(&self, node: u32) -> Computed {
        self.computed.get(node as usize - 16)
    }
}

/// What a worker knows of the current nodes: those of its piece and the new ones.
pub struct View<'a> {
    pub piece: &'a Piece,
    pub computed: &'a [Computed],
    pub facts: &'a [Fact],
}

impl Base for View<'_> {
    #[inline]
    fn fact(&self, node: u32) -> Fact {
        match self.facts.get((node as usize).wrapping_sub(16 + self.piece.computed.len as usize)) {
            Some(&fact) => fact,
            None => self.piece.fact(node),
        }
    }
    #[inline]
    fn nodes(&self) -> u32 {
        self.piece.nodes() + self.computed.len() as u32
    }
    #[inline]
    fn computed(&self, node: u32) -> Computed {
        match self.computed.get((node as usize).wrapping_sub(16 + self.piece.computed.len as usize))
        {
            Some(&computed) => computed,
            None => self.piece.computed(node),
        }
    }
}

/// The piece of all inputs.
pub fn root(stack: &Stack) -> Piece {
    Piece {
        words: [NOTHING; 16],
        excluded: Excluded::None,
        facts: Shared::default(),
        computed: Shared::default(),
        used: 0,
        known: 0,
        name: Name::default(),
        state: State {
            filter: stack.programs.len() as u16 - 1,
            pc: 0,
            mode: Mode::Run,
            a: Ref::Const(0),
            x: Ref::Const(0),
            scratch: None,
            answer: START,
        },
    }
}
