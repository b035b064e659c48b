//! What is known of a word or a computed node: an interval and known bits.

use crate::excluded::Excluded;
use crate::program::Op;

/// A node: a constant, or one of the sixteen words (0 to 15), or a computed node (from 16).
#[derive(Clone, Copy, PartialEq, Eq, Debug)]
pub enum Ref {
    Const(u32),
    Node(u32),
}

impl Default for Ref {
    fn default() -> Self {
        Ref::Const(0)
    }
}

/// An interval, and the bits that are known to be 0 or 1.
#[derive(Clone, Copy, PartialEq, Eq, Debug)]
pub struct Fact {
    pub low: u32,
    pub high: u32,
    pub zeros: u32,
    pub ones: u32,
}

/// What is known of a word at first.
pub const NOTHING: Fact = Fact { low: 0, high: u32::MAX, zeros: 0, ones: 0 };

impl Default for Fact {
    fn default() -> Self {
        NOTHING
    }
}

impl Fact {
    #[inline]
    pub fn number(c: u32) -> Fact {
        Fact { low: c, high: c, zeros: !c, ones: c }
    }
    /// Whether only one number is left.
    #[inline]
    pub fn decided(&self) -> bool {
        self.low == self.high
    }
    #[inline]
    pub fn wide(&self) -> Wide {
        Wide { low: self.low as i64, high: self.high as i64, zeros: self.zeros, ones: self.ones }
    }
    /// Whether the number is in the interval and has the known bits.
    #[inline]
    pub fn fits(&self, number: u32) -> bool {
        self.low <= number
            && number <= self.high
            && number & self.zeros == 0
            && number & self.ones == self.ones
    }
}

/// A fact on its way to being tightened; its bounds may have left the 32 bits.
#[derive(Clone, Copy)]
pub struct Wide {
    pub low: i64,
    pub high: i64,
    pub zeros: u32,
    pub ones: u32,
}

impl Wide {
    /// What both say.
    #[inline]
    pub fn meet(&self, other: &Wide) -> Wide {
        Wide {
            low: self.low.max(other.low),
            high: self.high.min(other.high),
            zeros: self.zeros | other.zeros,
            ones: self.ones | other.ones,
        }
    }
}

/// The least number at or above `from` with no bit of `zeros` and all of `ones`.
fn next_fitting(from: i64, zeros: u32, ones: u32) -> Option<i64> {
    if from > u32::MAX as i64 {
        return None;
    }
    let n = from as u32;
    if n & zeros == 0 && n & ones == ones {
        return Some(from);
    }
    // The answer leaves n at some bit that is 0 in n; the lowest such bit gives the least one.
    (0..32).filter(|p| n >> p & 1 == 0).find_map(|p| {
        let below = (1u32 << p) - 1;
        let m = (n & !below) | 1 << p | (ones & below);
        (m & zeros == 0 && m & ones == ones).then_some(m as i64)
    })
}

/// The greatest number at or below `from` with no bit of `zeros` and all of `ones`.
fn last_fitting(from: i64, zeros: u32, ones: u32) -> Option<i64> {
    if from < 0 {
        return None;
    }
    next_fitting((!(from as u32)) as i64, ones, zeros).map(|m| !(m as u32) as i64)
}

/// Tightens to the end; None is a contradiction. `word` names an input word.
#[inline]
pub fn tighten(mut f: Wide, word: Option<u32>, excluded: &Excluded) -> Option<Fact> {
    if f.low > f.high || f.zeros & f.ones != 0 {
        return None;
    }
    loop {
        let bits = (f.zeros, f.ones);
        if let Some(word) = word {
            if f.zeros | f.ones != 0 {
                f.low = least_left(&f, word, excluded)?;
                f.high = greatest_left(&f, word, excluded)?;
            } else if !matches!(excluded, Excluded::None) {
                f.low = excluded.next_free(word, f.low);
                f.high = excluded.last_free(word, f.high);
            }
        }
        let bounds = (f.low, f.high);
        f.low = f.low.max(f.ones as i64);
        f.high = f.high.min(!f.zeros as i64);
        if f.low > f.high {
            return None;
        }
        let (low, high) = (f.low as u32, f.high as u32);
        let known = match (low ^ high).leading_zeros() {
            0 => 0,
            n => !(u32::MAX.checked_shr(n).unwrap_or(0)),
        };
        f.zeros |= known & !low;
        f.ones |= known & low;
        if f.zeros & f.ones != 0 {
            return None;
        }
        // Another round would change nothing where the bounds suit the bits and, on a word,
        // the first step saw these same bounds and bits.
        if f.ones <= low
            && high <= !f.zeros
            && (word.is_none() || bounds == (f.low, f.high) && bits == (f.zeros, f.ones))
        {
            return Some(Fact { low, high, zeros: f.zeros, ones: f.ones });
        }
    }
}

/// The least number from the low end on that is neither excluded nor against the known bits.
fn least_left(f: &Wide, word: u32, excluded: &Excluded) -> Option<i64> {
    let mut low = f.low;
    loop {
        let free = excluded.next_free(word, low);
        low = next_fitting(free, f.zeros, f.ones)?;
        if low == free {
            return Some(low);
        }
    }
}

/// The greatest number up to the high end that is neither excluded nor against the known bits.
fn greatest_left(f: &Wide, word: u32, excluded: &Excluded) -> Option<i64> {
    let mut high = f.high;
    loop {
        let free = excluded.last_free(word, high);
        high = last_fitting(free, f.zeros, f.ones)?;
        if high == free {
            return Some(high);
        }
    }
}

/// The forward rule of one computed node, not yet tightened.
#[inline]
pub fn forward(op: Op, a: Fact, b: Fact) -> Wide {
    const FULL: i64 = u32::MAX as i64;
    const TWO32: i64 = 1 << 32;
    let (la, ha, lb, hb) = (a.low as i64, a.high as i64, b.low as i64, b.high as i64);
    let span = |low, high| Wide { low, high, zeros: 0, ones: 0 };
    let full = span(0, FULL);
    match op {
        Op::Add if ha + hb < TWO32 => span(la + lb, ha + hb),
        Op::Add if la + lb >= TWO32 => span(la + lb - TWO32, ha + hb - TWO32),
        Op::Add => full,
        Op::Sub if la >= hb => span(la - hb, ha - lb),
        Op::Sub if ha < lb => span(la - hb + TWO32, ha - lb + TWO32),
        Op::Sub => full,
        Op::Mul if (a.high as u64) * (b.high as u64) < 1 << 32 => span(la * lb, ha * hb),
        Op::Mul => full,
        Op::Div if lb >= 1 => span(la / hb, ha / lb),
        Op::Div => span(0, ha),
        Op::Or => {
            Wide { low: la.max(lb), high: FULL, zeros: a.zeros & b.zeros, ones: a.ones | b.ones }
        }
        Op::And => {
            Wide { low: 0, high: ha.min(hb), zeros: a.zeros | b.zeros, ones: a.ones & b.ones }
        }
        Op::Xor => Wide {
            low: 0,
            high: FULL,
            zeros: (a.zeros & b.zeros) | (a.ones & b.ones),
            ones: (a.zeros & b.ones) | (a.ones & b.zeros),
        },
        Op::Lsh if lb == hb => {
            let s = b.low % 32;
            let (low, high) = if ha << s < TWO32 { (la << s, ha << s) } else { (0, FULL) };
            Wide { low, high, zeros: a.zeros << s | ((1u32 << s) - 1), ones: a.ones << s }
        }
        Op::Lsh => full,
        Op::Rsh if lb == hb => {
            let s = b.low % 32;
            Wide {
                low: la >> s,
                high: ha >> s,
                zeros: a.zeros >> s | !(u32::MAX >> s),
                ones: a.ones >> s,
            }
        }
        Op::Rsh => span(0, ha),
        Op::Neg if la >= 1 => span(TWO32 - ha, TWO32 - la),
        Op::Neg if ha == 0 => span(0, 0),
        Op::Neg => full,
    }
}
