//! Buffers that are lent to the proved reader, with cells past their end that nobody may touch.

/// How many cells stand past the end.
const GUARD: usize = 6;

/// A buffer of which the first cells are lent.
#[derive(Clone)]
pub struct Lent<T> {
    cells: Vec<T>,
    lend: usize,
    guard: T,
}

impl<T: Copy + PartialEq> Lent<T> {
    /// A buffer with this content, all of it lent.
    pub fn new(content: &[T], guard: T) -> Lent<T> {
        let mut cells = content.to_vec();
        cells.extend([guard; GUARD]);
        Lent { cells, lend: content.len(), guard }
    }

    /// What is lent.
    pub fn get(&self) -> &[T] {
        &self.cells[..self.lend]
    }

    /// What is lent, to be changed.
    pub fn get_mut(&mut self) -> &mut [T] {
        &mut self.cells[..self.lend]
    }

    /// The pointer and the length to lend.
    pub fn parts(&mut self) -> (*mut T, usize) {
        (self.cells.as_mut_ptr(), self.lend)
    }

    /// Lends only so many cells.
    pub fn lend(&mut self, cells: usize) {
        assert!(cells + GUARD <= self.cells.len());
        self.lend = cells;
    }

    /// Lends everything but the guard again.
    pub fn lend_all(&mut self) {
        self.lend = self.cells.len() - GUARD;
    }

    /// Tells whether the cells past the end are as they were.
    pub fn guarded(&self) -> bool {
        self.cells[self.cells.len() - GUARD..].iter().all(|&cell| cell == self.guard)
    }
}
