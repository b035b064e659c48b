//! Bump arenas whose memory lives until the process ends. What is put in is shared by plain
//! `Copy` references: a fork of a path is a copy of a few words, without reference counts.

const CHUNK_BYTES: usize = 1 << 16;

/// Room for values that live as long as the process. It grows by chunks, each four times the one
/// before.
pub struct Arena<T: 'static> {
    free: &'static mut [T],
    next_chunk: usize,
}

impl<T: Copy + Default> Default for Arena<T> {
    fn default() -> Self {
        Arena { free: &mut [], next_chunk: 16 }
    }
}

impl<T: Copy + Default> Arena<T> {
    /// A new chunk of at least so many values.
    fn grow(&mut self, need: usize) {
        let size = self.next_chunk.max(need);
        let most = (CHUNK_BYTES / std::mem::size_of::<T>()).max(16);
        self.next_chunk = (self.next_chunk * 4).min(most);
        self.free = Box::leak(vec![T::default(); size].into_boxed_slice());
    }

    /// Keeps a value, and hands out a reference to it.
    #[inline]
    pub fn put(&mut self, value: T) -> &'static T {
        if self.free.is_empty() {
            self.grow(1);
        }
        let free = std::mem::take(&mut self.free);
        let (place, rest) = free.split_first_mut().expect("grown");
        *place = value;
        self.free = rest;
        place
    }

    /// Keeps a row of values.
    #[inline]
    pub fn put_slice(&mut self, values: &[T]) -> &'static [T] {
        if values.is_empty() {
            return &[];
        }
        if self.free.len() < values.len() {
            self.grow(values.len());
        }
        let free = std::mem::take(&mut self.free);
        let (place, rest) = free.split_at_mut(values.len());
        place.copy_from_slice(values);
        self.free = rest;
        place
    }
}
