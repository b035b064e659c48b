//! A worker: the piece that it works, what it learns there, and what it found so far.

use crate::arena::Arena;
use crate::excluded::{Excluded, ExcludedFork};
use crate::facts::{Fact, Ref, NOTHING};
use crate::name::Segment;
use crate::nodes::{Base, Computed, Overlay};
use crate::piece::{root, Piece, Region, View};
use crate::program::{Answer, Stack};
use crate::shared::Block;

/// Where a worker keeps what pieces and regions share.
#[derive(Default)]
pub struct Arenas {
    pub segments: Arena<Segment>,
    pub excluded: Arena<ExcludedFork>,
    pub facts: Arena<Block<Fact>>,
    pub computed: Arena<Block<Computed>>,
    pub scratch: Arena<[Ref; 16]>,
    pub words: Arena<Fact>,
}

/// Which results of a test some input of the piece may have.
pub enum Side {
    True,
    False,
    Both,
    Neither,
}

/// What became of a piece.
pub enum Step {
    Split,
    Settled(Answer),
    Empty,
}

/// What a piece learns in one direction of a test.
#[derive(Default)]
pub struct Learnt {
    pub items: Vec<(u32, Fact)>,
    pub excluded: Excluded,
}

/// What an exploration works on, and what it found so far.
pub struct Worker<'s> {
    pub stack: &'s Stack,
    pub now: Piece,
    /// Nodes computed since the last split, behind those of `now`.
    pub new_computed: Vec<Computed>,
    pub new_facts: Vec<Fact>,
    pub overlay: Overlay,
    pub overlay_excluded: Excluded,
    pub if_true: Learnt,
    pub if_false: Learnt,
    pub changes: Vec<(u32, Fact)>,
    pub arenas: Arenas,
    pub waiting: Vec<Piece>,
    pub regions: Vec<Region>,
    pub splits: usize,
    pub emptied: usize,
}

impl<'s> Worker<'s> {
    pub fn new(stack: &'s Stack) -> Worker<'s> {
        Worker {
            stack,
            now: root(stack),
            new_computed: Vec::new(),
            new_facts: Vec::new(),
            overlay: Overlay::default(),
            overlay_excluded: Excluded::None,
            if_true: Learnt::default(),
            if_false: Learnt::default(),
            changes: Vec::new(),
            arenas: Arenas::default(),
            waiting: Vec::new(),
            regions: Vec::new(),
            splits: 0,
            emptied: 0,
        }
    }

    /// What is known of the nodes of the current piece.
    #[inline]
    pub fn view(&self) -> View<'_> {
        View { piece: &self.now, computed: &self.new_computed, facts: &self.new_facts }
    }

    /// What is known of one node.
    #[inline]
    pub fn fact_of(&self, r: Ref) -> Fact {
        match r {
            Ref::Const(c) => Fact::number(c),
            Ref::Node(n) if n < 16 => self.now.words[n as usize],
            Ref::Node(n) => self.view().fact(n),
        }
    }

    /// Keeps the current piece as a region.
    fn keep_region(&mut self, answer: Answer) {
        let piece = &self.now;
        let mut words = [NOTHING; 16];
        let mut count = 0;
        let mut left = piece.known;
        while left != 0 {
            words[count] = piece.words[left.trailing_zeros() as usize];
            left &= left - 1;
            count += 1;
        }
        self.regions.push(Region {
            known: piece.known,
            used: piece.used,
            words: self.arenas.words.put_slice(&words[..count]),
            excluded: piece.excluded,
            facts: piece.facts,
            computed: piece.computed,
            name: piece.name,
            answer,
        });
    }

    /// Takes the waiting piece whose name is first.
    #[inline]
    pub fn next_waiting(&mut self) -> bool {
        let Some(piece) = self.waiting.last() else { return false };
        self.now = *piece;
        self.waiting.truncate(self.waiting.len() - 1);
        true
    }

    /// Advances the current piece once and keeps what came of it; whether the worker has a
    /// current piece after it.
    #[inline]
    pub fn commit(&mut self) -> bool {
        match self.advance() {
            Step::Split => true,
            Step::Settled(answer) => {
                self.keep_region(answer);
                false
            }
            Step::Empty => {
                self.new_computed.clear();
                self.new_facts.clear();
                self.emptied += 1;
                false
            }
        }
    }
}
