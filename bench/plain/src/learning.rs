//! What a test tells of its two words, in both directions.

use crate::excluded::Excluded;
use crate::facts::{tighten, Fact, Ref, Wide};
use crate::nodes::{pass, Base, Overlay};
use crate::piece::View;
use crate::program::{test, Op, Test};
use crate::worker::{Learnt, Side, Worker};

impl Worker<'_> {
    /// Both directions on a word that no computed node uses, against a constant.
    fn weigh_word(&mut self, word: u32, test: Test, c: u32) -> Side {
        let old = self.now.words[word as usize];
        let excluded = self.now.excluded;
        let wide = old.wide();
        let k = c as i64;
        let mut add = false;
        let tight = |wide: Wide| tighten(wide, Some(word), &excluded);
        let (if_true, if_false) = match test {
            Test::Eq => {
                let if_true = (old.fits(c) && !excluded.has(word, c)).then(|| Fact::number(c));
                let if_false = if c == old.low || c == old.high {
                    let mut moved = wide;
                    moved.low += (c == old.low) as i64;
                    moved.high -= (c == old.high) as i64;
                    tight(moved)
                } else {
                    add = old.low < c && c < old.high;
                    Some(old)
                };
                (if_true, if_false)
            }
            Test::Gt | Test::Ge => {
                // True from `first` on, false up to the number before it.
                let first = if test == Test::Gt { k + 1 } else { k };
                let if_true =
                    if first <= wide.low { Some(old) } else { tight(Wide { low: first, ..wide }) };
                let if_false = if first > wide.high {
                    Some(old)
                } else {
                    tight(Wide { high: first - 1, ..wide })
                };
                (if_true, if_false)
            }
            Test::Set => {
                let open = c & !old.zeros;
                let if_true = match open.count_ones() {
                    0 => None,
                    1 => tight(Wide { ones: wide.ones | open, ..wide }),
                    _ => Some(old),
                };
                (if_true, tight(Wide { zeros: wide.zeros | c, ..wide }))
            }
        };
        match (if_true, if_false) {
            (Some(on), Some(off)) => {
                self.if_true.items.clear();
                self.if_true.items.push((word, on));
                self.if_true.excluded = excluded;
                self.if_false.items.clear();
                self.if_false.items.push((word, off));
                self.if_false.excluded =
                    if add { excluded.with(word, c, &mut self.arenas.excluded) } else { excluded };
                Side::Both
            }
            (Some(_), None) => Side::True,
            (None, Some(_)) => Side::False,
            (None, None) => Side::Neither,
        }
    }

    /// What is known after what was learnt so far.
    fn overlay_fact(&self, r: Ref) -> Fact {
        match r {
            Ref::Const(c) => Fact::number(c),
            Ref::Node(n) => self.overlay.get(n).unwrap_or_else(|| self.view().fact(n)),
        }
    }

    /// Tightens and keeps; false is a contradiction. A constant can only stay what it is.
    fn settle_fact(&mut self, r: Ref, wide: Wide) -> bool {
        let word = match r {
            Ref::Node(n) if n < 16 => Some(n),
            _ => None,
        };
        let Some(fact) = tighten(wide, word, &self.overlay_excluded) else {
            return false;
        };
        if let Ref::Node(n) = r {
            if fact != self.overlay_fact(r) {
                self.overlay.set(n, fact);
            }
        }
        true
    }

    /// Takes a number out: of a word into its excluded numbers, of a computed node only at the ends
    /// of its interval.
    fn exclude(&mut self, r: Ref, wide: &mut Wide, c: u32) {
        match r {
            Ref::Node(n) if n < 16 => {
                if wide.low <= c as i64 && c as i64 <= wide.high {
                    self.overlay_excluded =
                        self.overlay_excluded.with(n, c, &mut self.arenas.excluded);
                }
            }
            _ => {
                wide.low += (wide.low == c as i64) as i64;
                wide.high -= (wide.high == c as i64) as i64;
            }
        }
    }

    /// Known bits go back from a node through AND, OR, XOR with one constant.
    fn walk_back(&mut self, r: Ref) -> bool {
        let Ref::Node(mut n) = r else { return true };
        while n >= 16 {
            let Some((c, x)) = self.view().computed(n).masked() else { return true };
            let op = self.view().computed(n).op;
            let Fact { zeros, ones, .. } = self.overlay_fact(Ref::Node(n));
            let (more_zeros, more_ones) = match op {
                Op::And => (zeros & c, ones),
                Op::Or => (zeros, ones & !c),
                _ => ((zeros & !c) | (ones & c), (ones & !c) | (zeros & c)),
            };
            let mut wide = self.overlay_fact(Ref::Node(x)).wide();
            if (wide.zeros | more_zeros, wide.ones | more_ones) != (wide.zeros, wide.ones) {
                wide.zeros |= more_zeros;
                wide.ones |= more_ones;
                if !self.settle_fact(Ref::Node(x), wide) {
                    return false;
                }
            }
            n = x;
        }
        true
    }

    /// Learns one direction into the overlay; false is a contradiction.
    pub fn learn(&mut self, v: Ref, test: Test, w: Ref, sense: bool) -> bool {
        let nodes = self.view().nodes() as usize;
        self.overlay.start(nodes);
        self.overlay_excluded = self.now.excluded;
        let (fv, fw) = (self.fact_of(v), self.fact_of(w));
        let (old_v, old_w) = (fv.wide(), fw.wide());
        let (mut nv, mut nw) = (old_v, old_w);
        match (test, sense) {
            (Test::Eq, true) => {
                nv = old_v.meet(&old_w);
                nw = nv;
            }
            (Test::Eq, false) => {
                if fw.decided() {
                    self.exclude(v, &mut nv, fw.low);
                }
                if fv.decided() {
                    self.exclude(w, &mut nw, fv.low);
                }
            }
            (Test::Gt, true) => {
                nv.low = nv.low.max(old_w.low + 1);
                nw.high = nw.high.min(old_v.high - 1);
            }
            (Test::Gt, false) => {
                nv.high = nv.high.min(old_w.high);
                nw.low = nw.low.max(old_v.low);
            }
            (Test::Ge, true) => {
                nv.low = nv.low.max(old_w.low);
                nw.high = nw.high.min(old_v.high);
            }
            (Test::Ge, false) => {
                nv.high = nv.high.min(old_w.high - 1);
                nw.low = nw.low.max(old_v.low + 1);
            }
            (Test::Set, true) if fw.decided() => {
                let open = fw.low & !fv.zeros;
                match open.count_ones() {
                    0 => return false,
                    1 => nv.ones |= open,
                    _ => {}
                }
            }
            (Test::Set, false) if fw.decided() => nv.zeros |= fw.low,
            (Test::Set, _) => {}
        }
        if v == w {
            nv = nv.meet(&nw);
            nw = nv;
        }
        if !self.settle_fact(v, nv) || !self.settle_fact(w, nw) {
            return false;
        }
        if !self.walk_back(v) || !self.walk_back(w) {
            return false;
        }
        let view = View { piece: &self.now, computed: &self.new_computed, facts: &self.new_facts };
        pass(&view, &mut self.overlay)
    }

    /// Keeps what was learnt in one direction.
    fn keep_learnt(overlay: &Overlay, excluded: Excluded, to: &mut Learnt) {
        to.items.clear();
        to.items.extend(overlay.changed.iter().map(|&n| (n, overlay.value(n))));
        to.items.sort_unstable_by_key(|item| item.0);
        to.excluded = excluded;
    }

    /// Whether known bits go back from this node.
    #[inline]
    pub fn goes_back(&self, r: Ref) -> bool {
        matches!(r, Ref::Node(n) if n >= 16 && self.view().computed(n).masked().is_some())
    }

    /// Which directions of an entry don't contradict; where both, they are kept for the split.
    #[inline]
    pub fn weigh(&mut self, v: Ref, kind: Test, w: Ref) -> Side {
        let (fv, fw) = (self.fact_of(v), self.fact_of(w));
        if fv.decided() && fw.decided() {
            let result = test(kind, fv.low, fw.low);
            // The other direction contradicts. This one changes nothing unless bits go back.
            if (self.goes_back(v) || self.goes_back(w)) && !self.learn(v, kind, w, result) {
                return Side::Neither;
            }
            return if result { Side::True } else { Side::False };
        }
        if let (Ref::Node(n), Ref::Const(c)) = (v, w) {
            if n < 16 && self.now.used >> n & 1 == 0 {
                return self.weigh_word(n, kind, c);
            }
        }
        let if_true = self.learn(v, kind, w, true);
        if if_true {
            Self::keep_learnt(&self.overlay, self.overlay_excluded, &mut self.if_true);
        }
        let if_false = self.learn(v, kind, w, false);
        match (if_true, if_false) {
            (true, true) => {
                Self::keep_learnt(&self.overlay, self.overlay_excluded, &mut self.if_false);
                Side::Both
            }
            (true, false) => Side::True,
            (false, true) => Side::False,
            (false, false) => Side::Neither,
        }
    }
}
