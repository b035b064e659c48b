//! Vectors that forks share.

use crate::arena::Arena;

const LEAF: usize = 8;
const FAN: usize = 16;

/// A block of a vector: values, or the blocks below it.
#[derive(Clone, Copy)]
pub enum Block<T: 'static> {
    Leaf([T; LEAF]),
    Inner([Option<&'static Block<T>>; FAN]),
}

impl<T: Copy + Default> Default for Block<T> {
    fn default() -> Self {
        Block::Inner([None; FAN])
    }
}

/// A shared vector: a change copies the blocks on its way, a fork copies the root's place.
#[derive(Clone, Copy)]
pub struct Shared<T: 'static> {
    root: Option<&'static Block<T>>,
    pub len: u32,
    height: u32,
}

impl<T> Default for Shared<T> {
    fn default() -> Self {
        Shared { root: None, len: 0, height: 0 }
    }
}

impl<T: Copy + Default> Shared<T> {
    /// How many values a vector of this height has room for.
    #[inline]
    fn room(height: u32) -> usize {
        LEAF << (4 * height)
    }

    /// The block of values that has the one at this place.
    #[inline]
    pub fn leaf(&self, index: usize) -> &'static [T; LEAF] {
        let mut at = self.root.expect("not empty");
        let mut height = self.height;
        loop {
            match at {
                Block::Leaf(values) => return values,
                Block::Inner(below) => {
                    height -= 1;
                    at = below[index / Self::room(height) % FAN].expect("filled");
                }
            }
        }
    }

    #[inline]
    pub fn get(&self, index: usize) -> T {
        self.leaf(index)[index % LEAF]
    }

    /// The changes are (index, value) in rising order; those past the end append, without gaps.
    pub fn edit(&mut self, changes: &[(u32, T)], arena: &mut Arena<Block<T>>) {
        let Some(&(last, _)) = changes.last() else { return };
        while last as usize >= Self::room(self.height) {
            if let Some(root) = self.root {
                let mut below = [None; FAN];
                below[0] = Some(root);
                self.root = Some(arena.put(Block::Inner(below)));
            }
            self.height += 1;
        }
        self.root = Some(Self::rebuilt(self.root, self.height, changes, arena));
        self.len = self.len.max(last + 1);
    }

    /// A block with the changes that fall into it.
    fn rebuilt(
        old: Option<&'static Block<T>>,
        height: u32,
        changes: &[(u32, T)],
        arena: &mut Arena<Block<T>>,
    ) -> &'static Block<T> {
        if height == 0 {
            let mut values = match old {
                Some(Block::Leaf(values)) => *values,
                _ => [T::default(); LEAF],
            };
            for &(index, value) in changes {
                values[index as usize % LEAF] = value;
            }
            return arena.put(Block::Leaf(values));
        }
        let mut below = match old {
            Some(Block::Inner(below)) => *below,
            _ => [None; FAN],
        };
        let room = Self::room(height - 1);
        let mut rest = changes;
        while let Some(&(first, _)) = rest.first() {
            let part = first as usize / room;
            let count = rest.partition_point(|&(index, _)| index as usize / room == part);
            let place = part % FAN;
            below[place] = Some(Self::rebuilt(below[place], height - 1, &rest[..count], arena));
            rest = &rest[count..];
        }
        arena.put(Block::Inner(below))
    }
}
