//! New nodes of a piece, and its split in two.

use crate::arena::Arena;
use crate::excluded::Excluded;
use crate::facts::{forward, tighten, Fact, Ref};
use crate::nodes::Computed;
use crate::piece::{Piece, State};
use crate::program::{compute, Op};
use crate::shared::Block;
use crate::worker::{Learnt, Worker};

impl Worker<'_> {
    /// The node of an operation; None where its facts contradict.
    pub fn push(&mut self, op: Op, a: Ref, b: Ref) -> Option<Ref> {
        if let (Ref::Const(a), Ref::Const(b)) = (a, b) {
            return Some(Ref::Const(compute(op, a, b)));
        }
        let computed = Computed { op, a, b };
        let above = |r: Ref| if let Ref::Node(n) = r { n + 1 } else { 0 };
        let count = self.now.computed.len;
        let first = above(a).max(above(b)).max(16) - 16;
        let mut at = first;
        while at < count {
            let leaf = self.now.computed.leaf(at as usize);
            let stop = (at | 7).min(count - 1);
            for k in at..=stop {
                if leaf[k as usize % 8] == computed {
                    return Some(Ref::Node(16 + k));
                }
            }
            at = stop + 1;
        }
        let from = first.saturating_sub(count) as usize;
        if let Some(k) = self.new_computed[from..].iter().position(|old| *old == computed) {
            return Some(Ref::Node(16 + count + (from + k) as u32));
        }
        let rule = forward(op, self.fact_of(a), self.fact_of(b));
        let fact = tighten(rule, None, &Excluded::None)?;
        for r in [a, b] {
            if let Ref::Node(n @ 0..16) = r {
                self.now.used |= 1 << n;
            }
        }
        self.new_computed.push(computed);
        self.new_facts.push(fact);
        Some(Ref::Node(16 + count + self.new_computed.len() as u32 - 1))
    }

    /// Moves the new nodes into the shared vectors.
    pub fn flush(&mut self) {
        if self.new_computed.is_empty() {
            return;
        }
        let from = self.now.computed.len;
        let computed: Vec<_> = self
            .new_computed
            .drain(..)
            .enumerate()
            .map(|(i, computed)| (from + i as u32, computed))
            .collect();
        self.now.computed.edit(&computed, &mut self.arenas.computed);
        self.changes.clear();
        self.changes
            .extend(self.new_facts.drain(..).enumerate().map(|(i, fact)| (from + i as u32, fact)));
        self.now.facts.edit(&self.changes, &mut self.arenas.facts);
    }

    /// Gives a piece what was learnt for it.
    fn apply(
        piece: &mut Piece,
        learnt: &Learnt,
        changes: &mut Vec<(u32, Fact)>,
        arena: &mut Arena<Block<Fact>>,
    ) {
        piece.excluded = learnt.excluded;
        let words = learnt.items.partition_point(|item| item.0 < 16);
        for &(word, fact) in &learnt.items[..words] {
            piece.words[word as usize] = fact;
            piece.known |= 1 << word;
        }
        if words < learnt.items.len() {
            changes.clear();
            changes.extend(learnt.items[words..].iter().map(|&(n, fact)| (n - 16, fact)));
            piece.facts.edit(changes, arena);
        }
    }

    /// Splits: the true child waits, the worker goes on with the false one.
    pub fn split(&mut self, true_state: State) {
        self.flush();
        self.waiting.push(self.now);
        let child = self.waiting.last_mut().expect("pushed");
        Self::apply(child, &self.if_true, &mut self.changes, &mut self.arenas.facts);
        child.name.push(true, &mut self.arenas.segments);
        child.state = true_state;
        Self::apply(&mut self.now, &self.if_false, &mut self.changes, &mut self.arenas.facts);
        self.now.name.push(false, &mut self.arenas.segments);
        self.splits += 1;
    }
}
