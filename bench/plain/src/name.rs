//! Names of pieces: lists of truth values in shared segments. A segment holds up to 64 values,
//! or a run of any number of false ones, so that a long chain of failed tests is one segment.

use crate::arena::Arena;

/// Values that names share.
#[derive(Clone, Copy, Default)]
pub struct Segment {
    before: Option<&'static Segment>,
    bits: u64,
    count: u32,
}

/// The last segment is the name's own; those before it are shared.
/// `bits` holds the values, the last one in bit 0; where `count` is above 64 all are false.
#[derive(Clone, Copy, Default)]
pub struct Name {
    before: Option<&'static Segment>,
    bits: u64,
    count: u32,
}

impl Name {
    /// Makes all values shared, so that others can follow.
    #[inline]
    fn cut(&mut self, arena: &mut Arena<Segment>) {
        let segment = Segment { before: self.before, bits: self.bits, count: self.count };
        *self = Name { before: Some(arena.put(segment)), bits: 0, count: 0 };
    }

    /// Adds a value.
    #[inline]
    pub fn push(&mut self, value: bool, arena: &mut Arena<Segment>) {
        if value {
            if self.count >= 64 {
                self.cut(arena);
            }
            self.bits = (self.bits << 1) | 1;
            self.count += 1;
        } else {
            self.push_false(1, arena);
        }
    }

    /// Adds so many false values.
    #[inline]
    pub fn push_false(&mut self, times: u32, arena: &mut Arena<Segment>) {
        if self.bits == 0 {
            self.count += times;
        } else if self.count + times <= 64 && times < 64 {
            self.bits <<= times;
            self.count += times;
        } else if times > 0 {
            self.cut(arena);
            self.count = times;
        }
    }

    /// The 32 bits of a number, bit 31 first.
    pub fn push_number(&mut self, number: u32, arena: &mut Arena<Segment>) {
        if self.count + 32 > 64 {
            self.cut(arena);
        }
        self.bits = (self.bits << 32) | number as u64;
        self.count += 32;
    }

    /// All values, the first one first.
    pub fn values(&self) -> Vec<bool> {
        let mut parts = vec![(self.bits, self.count)];
        let mut at = self.before;
        while let Some(segment) = at {
            parts.push((segment.bits, segment.count));
            at = segment.before;
        }
        let mut values = Vec::with_capacity(parts.iter().map(|part| part.1 as usize).sum());
        for &(bits, count) in parts.iter().rev() {
            if count > 64 {
                values.resize(values.len() + count as usize, false);
            } else {
                values.extend((0..count).rev().map(|i| bits >> i & 1 == 1));
            }
        }
        values
    }

    /// The text of the name is appended: T and F, `-` for the empty name.
    pub fn print(&self, text: &mut Vec<u8>) {
        let start = text.len();
        let mut parts = [(0u64, 0u32); 64];
        let mut used = 0;
        let mut at = self.before;
        parts[0] = (self.bits, self.count);
        used += 1;
        let mut more = Vec::new();
        while let Some(segment) = at {
            if used < parts.len() {
                parts[used] = (segment.bits, segment.count);
                used += 1;
            } else {
                more.push((segment.bits, segment.count));
            }
            at = segment.before;
        }
        for &(bits, count) in more.iter().rev().chain(parts[..used].iter().rev()) {
            if bits == 0 {
                text.resize(text.len() + count as usize, b'F');
            } else {
                text.extend((0..count).rev().map(|i| if bits >> i & 1 == 1 { b'T' } else { b'F' }));
            }
        }
        if text.len() == start {
            text.push(b'-');
        }
    }
}
