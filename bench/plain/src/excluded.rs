//! Numbers that an input word hasn't.

use crate::arena::Arena;

/// A shared set of excluded numbers of all words: a binary trie over keys of 30 bits (word, then
/// the upper 26 bits of the number) whose leaves are 64 numbers wide.
#[derive(Clone, Copy, Default)]
pub enum Excluded {
    #[default]
    None,
    Tip(u32, u64),
    Fork(&'static ExcludedFork),
}

/// An inner node: the keys below it agree with `prefix` above `bit`.
#[derive(Clone, Copy, Default)]
pub struct ExcludedFork {
    prefix: u32,
    bit: u32,
    low: Excluded,
    high: Excluded,
}

#[inline]
fn key_of(word: u32, number: u32) -> u32 {
    word << 26 | number >> 6
}

impl Excluded {
    /// The numbers of a leaf, one bit each.
    #[inline]
    fn tip(&self, key: u32) -> u64 {
        let mut at = *self;
        loop {
            match at {
                Excluded::None => return 0,
                Excluded::Tip(k, bits) => return if k == key { bits } else { 0 },
                Excluded::Fork(fork) => at = if key & fork.bit == 0 { fork.low } else { fork.high },
            }
        }
    }

    /// Whether the number is in the set.
    #[inline]
    pub fn has(&self, word: u32, number: u32) -> bool {
        self.tip(key_of(word, number)) >> (number & 63) & 1 == 1
    }

    /// The set with one number more.
    pub fn with(&self, word: u32, number: u32, arena: &mut Arena<ExcludedFork>) -> Excluded {
        self.with_tip(key_of(word, number), 1 << (number & 63), arena)
    }

    fn with_tip(&self, key: u32, add: u64, arena: &mut Arena<ExcludedFork>) -> Excluded {
        match *self {
            Excluded::None => Excluded::Tip(key, add),
            Excluded::Tip(k, bits) if k == key => Excluded::Tip(k, bits | add),
            Excluded::Tip(k, _) => self.beside(k, key, add, arena),
            Excluded::Fork(fork) => {
                let above = !(fork.bit | (fork.bit - 1));
                if (key ^ fork.prefix) & above != 0 {
                    return self.beside(fork.prefix, key, add, arena);
                }
                let mut copy = *fork;
                if key & fork.bit == 0 {
                    copy.low = fork.low.with_tip(key, add, arena);
                } else {
                    copy.high = fork.high.with_tip(key, add, arena);
                }
                Excluded::Fork(arena.put(copy))
            }
        }
    }

    /// A fork of the set, whose keys begin otherwise, and a new leaf.
    fn beside(&self, own: u32, key: u32, add: u64, arena: &mut Arena<ExcludedFork>) -> Excluded {
        let bit = 1u32 << (31 - (own ^ key).leading_zeros());
        let prefix = key & !(bit | (bit - 1));
        let tip = Excluded::Tip(key, add);
        let (low, high) = if key & bit == 0 { (tip, *self) } else { (*self, tip) };
        Excluded::Fork(arena.put(ExcludedFork { prefix, bit, low, high }))
    }

    /// The least number at or above `from` that isn't excluded.
    #[inline]
    pub fn next_free(&self, word: u32, from: i64) -> i64 {
        let mut n = from;
        while n <= u32::MAX as i64 {
            let free = !self.tip(key_of(word, n as u32)) >> (n & 63);
            if free != 0 {
                return n + free.trailing_zeros() as i64;
            }
            n = (n | 63) + 1;
        }
        n
    }

    /// The greatest number at or below `from` that isn't excluded.
    #[inline]
    pub fn last_free(&self, word: u32, from: i64) -> i64 {
        let mut n = from;
        while n >= 0 {
            let free = !self.tip(key_of(word, n as u32)) << (63 - (n & 63));
            if free != 0 {
                return n - free.leading_zeros() as i64;
            }
            n = (n & !63) - 1;
        }
        n
    }
}
