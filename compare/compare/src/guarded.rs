//! Buffers that are lent to the archive between guards.

use independent::Answer;
use inputs::random::Random;

/// Guard cells on either side.
const GUARD: usize = 16;

/// A row of cells between guards, with what stood there before the call.
pub struct Guarded<T> {
    cells: Vec<T>,
    before: Vec<T>,
}

impl<T: Copy + PartialEq> Guarded<T> {
    /// `value` between guards of random cells.
    pub fn holding(value: &[T], mut any: impl FnMut() -> T) -> Guarded<T> {
        let mut cells: Vec<T> = (0..GUARD).map(|_| any()).collect();
        cells.extend_from_slice(value);
        cells.extend((0..GUARD).map(|_| any()));
        Guarded { before: cells.clone(), cells }
    }

    /// `count` random cells between guards.
    pub fn any(count: usize, mut any: impl FnMut() -> T) -> Guarded<T> {
        let value: Vec<T> = (0..count).map(|_| any()).collect();
        Guarded::holding(&value, any)
    }

    fn inside(&self) -> std::ops::Range<usize> {
        GUARD..self.cells.len() - GUARD
    }

    /// The cells between the guards, to be lent.
    pub fn lent(&mut self) -> &mut [T] {
        let inside = self.inside();
        &mut self.cells[inside]
    }

    /// The same as an array; `N` is their count.
    pub fn array<const N: usize>(&mut self) -> &mut [T; N] {
        self.lent().try_into().expect("the count of cells")
    }

    /// The same where it is one cell.
    pub fn cell(&mut self) -> &mut T {
        let [cell] = self.array();
        cell
    }

    /// What stands there now.
    pub fn now(&self) -> &[T] {
        &self.cells[self.inside()]
    }

    pub fn guards_kept(&self) -> bool {
        let inside = self.inside();
        self.cells[..inside.start] == self.before[..inside.start]
            && self.cells[inside.end..] == self.before[inside.end..]
    }

    /// Whether the lent cells from `start` on are as before the call.
    pub fn kept_from(&self, start: usize) -> bool {
        let inside = self.inside();
        self.cells[inside.clone()][start..] == self.before[inside][start..]
    }
}

pub fn any_bytes(count: usize, random: &mut Random) -> Guarded<u8> {
    Guarded::any(count, || random.byte())
}

/// The place of an answer.
pub fn any_answer(random: &mut Random) -> Guarded<Answer> {
    Guarded::any(1, || Answer {
        number: random.number(),
        position: random.number(),
        length: random.number(),
    })
}

pub fn any_numbers(count: usize, random: &mut Random) -> Guarded<u64> {
    Guarded::any(count, || random.number())
}

#[cfg(test)]
mod tests {
    use super::*;

    #[test]
    fn what_is_touched_is_seen() {
        let mut random = Random::new(1);
        let mut buffer = any_bytes(8, &mut random);
        assert!(buffer.guards_kept() && buffer.kept_from(0));
        buffer.lent()[3] ^= 1;
        assert!(buffer.guards_kept() && buffer.kept_from(4) && !buffer.kept_from(3));
        for at in [0, GUARD - 1, GUARD + 8, 2 * GUARD + 7] {
            let mut buffer = any_bytes(8, &mut random);
            buffer.cells[at] ^= 1;
            assert!(!buffer.guards_kept());
        }
    }
}
