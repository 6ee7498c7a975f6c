//! Lent memory filled with a pattern, so that every write into it, or beside it, shows.

/// A kind of number that lent memory consists of.
pub trait Cell: Copy + PartialEq {
    /// Never zero, and different from its neighbours.
    fn pattern(index: usize, seed: u64) -> Self;
}

impl Cell for u8 {
    fn pattern(index: usize, seed: u64) -> u8 {
        (index as u8).wrapping_mul(0x9E).wrapping_add(seed as u8) | 1
    }
}

impl Cell for u16 {
    fn pattern(index: usize, seed: u64) -> u16 {
        (index as u16).wrapping_mul(0x9E36).wrapping_add(seed as u16) | 1
    }
}

/// An area with a margin on either side that nobody may touch.
pub struct Lent<T> {
    cells: Vec<T>,
    seed: u64,
}

const MARGIN: usize = 64;

impl<T: Cell> Lent<T> {
    pub fn new(length: usize, seed: u64) -> Self {
        let cells = (0..length + 2 * MARGIN).map(|index| T::pattern(index, seed)).collect();
        Lent { cells, seed }
    }

    pub fn part(&mut self) -> &mut [T] {
        let end = self.cells.len() - MARGIN;
        &mut self.cells[MARGIN..end]
    }

    /// The first `count` cells of the lent part.
    pub fn first(&self, count: usize) -> &[T] {
        &self.cells[MARGIN..MARGIN + count]
    }

    /// The first cell outside the first `written` ones that is not as it was lent, counted from
    /// the lent part's start.
    pub fn change_beyond(&self, written: usize) -> Option<isize> {
        let changed = |&index: &usize| self.cells[index] != T::pattern(index, self.seed);
        let before = (0..MARGIN).find(changed);
        let change = before.or_else(|| (MARGIN + written..self.cells.len()).find(changed));
        change.map(|index| index as isize - MARGIN as isize)
    }
}

#[cfg(test)]
mod tests {
    use super::*;

    #[test]
    fn untouched_memory_shows_no_change() {
        assert_eq!(Lent::<u8>::new(0, 1).change_beyond(0), None);
        assert_eq!(Lent::<u16>::new(100, 2).change_beyond(0), None);
    }

    #[test]
    fn every_single_write_shows() {
        for index in 0..10 + 2 * MARGIN {
            let mut lent = Lent::<u8>::new(10, 3);
            lent.cells[index] ^= 1 << (index % 8);
            let place = index as isize - MARGIN as isize;
            assert_eq!(lent.change_beyond(0), Some(place));
            assert_eq!(lent.change_beyond(10).is_some(), !(0..10).contains(&place));
        }
    }
}
