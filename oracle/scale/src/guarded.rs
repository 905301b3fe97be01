//! A lent buffer with a known filling, and known cells on both sides of it. Without these cells the buffer is a block of its own, as a memory checker wants it.

use std::sync::atomic::{AtomicUsize, Ordering};

/// How many cells stand on each side.
static SIDE: AtomicUsize = AtomicUsize::new(64);

/// From now on no cells stand beside a buffer.
pub fn bare() {
    SIDE.store(0, Ordering::Relaxed);
}

pub struct Guarded<T> {
    cells: Box<[T]>,
    side: usize,
    guard: T,
}

impl<T: Copy + PartialEq> Guarded<T> {
    /// A buffer of these cells.
    pub fn of(cells: &[T], guard: T) -> Self {
        let mut made = Self::filled(guard, cells.len(), guard);
        made.lent().copy_from_slice(cells);
        made
    }

    pub fn filled(fill: T, length: usize, guard: T) -> Self {
        let side = SIDE.load(Ordering::Relaxed);
        let mut cells = vec![fill; length + 2 * side].into_boxed_slice();
        cells[..side].fill(guard);
        cells[side + length..].fill(guard);
        Guarded { cells, side, guard }
    }

    pub fn lent(&mut self) -> &mut [T] {
        let end = self.cells.len() - self.side;
        &mut self.cells[self.side..end]
    }

    pub fn seen(&self) -> &[T] {
        &self.cells[self.side..self.cells.len() - self.side]
    }

    pub fn is_intact(&self) -> bool {
        let (before, rest) = self.cells.split_at(self.side);
        let after = &rest[rest.len() - self.side..];
        before.iter().chain(after).all(|cell| *cell == self.guard)
    }
}
