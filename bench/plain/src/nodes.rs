//! Computed nodes, and the forward pass over them.

use crate::excluded::Excluded;
use crate::facts::{forward, tighten, Fact, Ref, NOTHING};
use crate::program::Op;

/// A computed node: an operation and its operands.
#[derive(Clone, Copy, PartialEq, Eq)]
pub struct Computed {
    pub op: Op,
    pub a: Ref,
    pub b: Ref,
}

impl Default for Computed {
    fn default() -> Self {
        Computed { op: Op::Neg, a: Ref::Const(0), b: Ref::Const(0) }
    }
}

impl Computed {
    /// Constant and other operand of AND, OR, XOR with exactly one constant.
    #[inline]
    pub fn masked(&self) -> Option<(u32, u32)> {
        if !matches!(self.op, Op::And | Op::Or | Op::Xor) {
            return None;
        }
        match (self.a, self.b) {
            (Ref::Node(x), Ref::Const(c)) | (Ref::Const(c), Ref::Node(x)) => Some((c, x)),
            _ => None,
        }
    }
}

/// Changed facts of a round of learning, over facts that stay as they are.
#[derive(Default)]
pub struct Overlay {
    stamps: Vec<u32>,
    values: Vec<Fact>,
    stamp: u32,
    pub changed: Vec<u32>,
}

impl Overlay {
    /// Forgets all changes, and makes room for so many nodes.
    pub fn start(&mut self, nodes: usize) {
        if self.stamps.len() < nodes {
            let size = nodes.next_power_of_two().max(64);
            self.stamps.resize(size, 0);
            self.values.resize(size, NOTHING);
        }
        self.stamp = self.stamp.wrapping_add(1);
        if self.stamp == 0 {
            self.stamps.fill(0);
            self.stamp = 1;
        }
        self.changed.clear();
    }
    #[inline]
    pub fn is_changed(&self, node: u32) -> bool {
        self.stamps[node as usize] == self.stamp
    }
    #[inline]
    pub fn get(&self, node: u32) -> Option<Fact> {
        self.is_changed(node).then(|| self.values[node as usize])
    }
    #[inline]
    pub fn set(&mut self, node: u32, fact: Fact) {
        let at = node as usize;
        if self.stamps[at] != self.stamp {
            self.stamps[at] = self.stamp;
            self.changed.push(node);
        }
        self.values[at] = fact;
    }
    #[inline]
    pub fn value(&self, node: u32) -> Fact {
        self.values[node as usize]
    }
}

/// Facts of words and computed nodes as a piece or region has them.
pub trait Base {
    fn fact(&self, node: u32) -> Fact;
    fn nodes(&self) -> u32;
    fn computed(&self, node: u32) -> Computed;
}

/// Forward pass after the changes in the overlay: nodes none of whose operands changed keep
/// their facts, since these were met with the same rule before and are tight. False is a
/// contradiction.
pub fn pass(base: &impl Base, overlay: &mut Overlay) -> bool {
    let Some(&least) = overlay.changed.iter().min() else { return true };
    let changed = |overlay: &Overlay, r: Ref| matches!(r, Ref::Node(n) if overlay.is_changed(n));
    for node in (least + 1).max(16)..base.nodes() {
        let computed = base.computed(node);
        if !(changed(overlay, computed.a) || changed(overlay, computed.b)) {
            continue;
        }
        let read = |overlay: &Overlay, r: Ref| match r {
            Ref::Const(c) => Fact::number(c),
            Ref::Node(n) => overlay.get(n).unwrap_or_else(|| base.fact(n)),
        };
        let rule = forward(computed.op, read(overlay, computed.a), read(overlay, computed.b));
        let Some(rule) = tighten(rule, None, &Excluded::None) else { return false };
        let old = read(overlay, Ref::Node(node));
        let Some(new) = tighten(old.wide().meet(&rule.wide()), None, &Excluded::None) else {
            return false;
        };
        if new != old {
            overlay.set(node, new);
        }
    }
    true
}
