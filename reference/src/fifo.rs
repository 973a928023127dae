//! A first-in first-out store of at most SIZE bytes, in a fixed ring.

#[derive(Clone, Debug)]
pub struct Fifo<const SIZE: usize> {
    ring: [u8; SIZE],
    oldest: usize,
    count: usize,
}

impl<const SIZE: usize> Fifo<SIZE> {
    pub const fn new() -> Self {
        // The places are found by masking, so the size is a power of two.
        assert!(SIZE.is_power_of_two());
        Fifo {
            ring: [0; SIZE],
            oldest: 0,
            count: 0,
        }
    }

    /// A store that holds the first bytes, the oldest first.
    #[inline]
    pub fn stored(bytes: &[u8; SIZE], count: usize) -> Self {
        debug_assert!(count <= SIZE);
        Fifo {
            ring: *bytes,
            oldest: 0,
            count,
        }
    }

    #[inline]
    pub fn count(&self) -> usize {
        self.count
    }

    #[inline]
    pub fn room(&self) -> usize {
        SIZE - self.count
    }

    #[inline]
    pub fn is_empty(&self) -> bool {
        self.count == 0
    }

    #[inline]
    pub fn is_full(&self) -> bool {
        self.count == SIZE
    }

    #[inline]
    pub fn clear(&mut self) {
        self.count = 0;
    }

    /// Stores a byte as the newest; the caller has looked for room.
    #[inline]
    pub fn put(&mut self, byte: u8) {
        debug_assert!(!self.is_full());
        self.ring[(self.oldest + self.count) & (SIZE - 1)] = byte;
        self.count += 1;
    }

    /// Takes the oldest byte; the caller has looked for one.
    #[inline]
    pub fn take(&mut self) -> u8 {
        debug_assert!(!self.is_empty());
        let byte = self.ring[self.oldest & (SIZE - 1)];
        self.oldest = (self.oldest + 1) & (SIZE - 1);
        self.count -= 1;
        byte
    }

    /// Stores the bytes in their order; the caller has looked for room.
    #[inline]
    pub fn put_all(&mut self, bytes: &[u8]) {
        debug_assert!(bytes.len() <= self.room());
        let start = (self.oldest + self.count) & (SIZE - 1);
        let (before, after) = bytes.split_at(bytes.len().min(SIZE - start));
        self.ring[start..start + before.len()].copy_from_slice(before);
        self.ring[..after.len()].copy_from_slice(after);
        self.count += bytes.len();
    }

    /// Takes as many bytes as there are places, the oldest first; the caller
    /// has looked for so many.
    #[inline]
    pub fn take_all(&mut self, places: &mut [u8]) {
        let length = places.len();
        debug_assert!(length <= self.count);
        let start = self.oldest & (SIZE - 1);
        let (before, after) = places.split_at_mut(length.min(SIZE - start));
        before.copy_from_slice(&self.ring[start..start + before.len()]);
        after.copy_from_slice(&self.ring[..after.len()]);
        self.oldest = (start + length) & (SIZE - 1);
        self.count -= length;
    }

    /// The bytes held, oldest first, before and after the end of the ring.
    #[inline]
    fn parts(&self) -> (&[u8], &[u8]) {
        let end = self.oldest + self.count;
        if end <= SIZE {
            (&self.ring[self.oldest..end], &[])
        } else {
            (&self.ring[self.oldest..], &self.ring[..end - SIZE])
        }
    }

    /// Writes the bytes held, oldest first, and 0 past them; there is room for
    /// the whole ring.
    #[inline]
    pub fn write(&self, bytes: &mut [u8]) {
        let (first, second) = self.parts();
        let (held, rest) = bytes.split_at_mut(self.count);
        let (before, after) = held.split_at_mut(first.len());
        before.copy_from_slice(first);
        after.copy_from_slice(second);
        rest.fill(0);
    }
}

/// Two stores are the same if they hold the same bytes, wherever in the ring.
impl<const SIZE: usize> PartialEq for Fifo<SIZE> {
    #[inline]
    fn eq(&self, other: &Self) -> bool {
        if self.oldest == other.oldest {
            return self.parts() == other.parts();
        }
        let ((first, second), (third, fourth)) = (self.parts(), other.parts());
        let held = first.iter().chain(second);
        self.count == other.count && held.eq(third.iter().chain(fourth))
    }
}

impl<const SIZE: usize> Eq for Fifo<SIZE> {}

impl<const SIZE: usize> Default for Fifo<SIZE> {
    fn default() -> Self {
        Fifo::new()
    }
}
