//! What a run is lent, with guards around it, and what must stand there after it.

use jobs::random::Random;
use rotblossom::{Gap, Lent};
use std::ops::Range;

/// So many elements before and behind each lent slice are guards.
const GUARD: usize = 32;

/// Slices begin at one of so many places, so that leftovers and alignment differ from run to run.
const PLACES: usize = 1024;

/// What can be lent.
pub trait Element: Copy + PartialEq {
    const ZERO: Self;
    fn random(random: &mut Random) -> Self;
}

impl Element for u8 {
    const ZERO: Self = 0;
    fn random(random: &mut Random) -> Self {
        random.byte()
    }
}

impl Element for u16 {
    const ZERO: Self = 0;
    fn random(random: &mut Random) -> Self {
        random.bits() as u16
    }
}

impl Element for u32 {
    const ZERO: Self = 0;
    fn random(random: &mut Random) -> Self {
        random.bits() as u32
    }
}

impl Element for Gap {
    const ZERO: Self = Gap { first: 0, last: 0 };
    fn random(random: &mut Random) -> Self {
        let [first, last] = [u16::random(random), u16::random(random)];
        Gap { first, last }
    }
}

/// What must stand in a lent slice after a run. The guards stay as they were in any case.
#[derive(Clone, Copy)]
pub enum After<'a, T> {
    Untouched,
    Zero,
    /// These at the front, and behind them what stood there before.
    Begins(&'a [T]),
}

/// A buffer of random elements, from which slices are lent.
pub struct Buffer<T> {
    before: Vec<T>,
    /// As `before`, but for what the last run changed.
    now: Vec<T>,
    lent: Range<usize>,
}

impl<T: Element> Buffer<T> {
    fn new() -> Self {
        Buffer {
            before: Vec::new(),
            now: Vec::new(),
            lent: 0..0,
        }
    }

    /// Chooses the slice to lend; random leftovers stand in it.
    fn choose(&mut self, length: usize, random: &mut Random) {
        let start = GUARD + random.below(PLACES);
        self.lent = start..start + length;
        let size = self.lent.end + GUARD;
        if self.before.len() < size {
            self.before.resize_with(size, || T::random(random));
            self.now.clone_from(&self.before);
        }
    }

    fn clear(&mut self) {
        self.lent().fill(T::ZERO);
    }

    fn lent(&mut self) -> &mut [T] {
        &mut self.now[self.lent.clone()]
    }

    /// The first elements of the lent slice, as many of them as there are.
    pub fn front(&self, length: usize) -> &[T] {
        let end = self.lent.end.min(self.lent.start.saturating_add(length));
        &self.now[self.lent.start..end]
    }

    pub fn is(&self, after: After<'_, T>) -> bool {
        let Range { start, end } = self.lent;
        let same = |range: Range<usize>| self.now[range.clone()] == self.before[range];
        let inside = match after {
            After::Untouched => same(start..end),
            After::Zero => self.front(end - start).iter().all(|e| *e == T::ZERO),
            After::Begins(front) => {
                self.front(front.len()) == front && same(start + front.len()..end)
            }
        };
        inside && same(start - GUARD..start) && same(end..end + GUARD)
    }

    /// Puts the leftovers back. A slice that is known to be untouched needs none of it.
    fn restore(&mut self) {
        let around = self.lent.start - GUARD..self.lent.end + GUARD;
        self.now[around.clone()].copy_from_slice(&self.before[around]);
    }
}

/// How many elements of each kind are lent.
#[derive(Clone, Copy)]
pub struct Sizes {
    pub work: usize,
    pub gaps: usize,
    pub answers: usize,
    pub marks: usize,
    pub pool: usize,
    pub bootstraps: usize,
    pub class_name: usize,
}

pub struct Memory {
    random: Random,
    pub work: Buffer<u32>,
    pub gaps: Buffer<Gap>,
    pub answers: Buffer<u16>,
    pub marks: Buffer<u8>,
    pub pool: Buffer<u8>,
    pub bootstraps: Buffer<u8>,
    pub class_name: Buffer<u8>,
}

impl Memory {
    pub fn new(seed: u64) -> Self {
        Memory {
            random: Random::new(seed),
            work: Buffer::new(),
            gaps: Buffer::new(),
            answers: Buffer::new(),
            marks: Buffer::new(),
            pool: Buffer::new(),
            bootstraps: Buffer::new(),
            class_name: Buffer::new(),
        }
    }

    /// At least one more than `least`.
    pub fn more(&mut self, least: usize) -> usize {
        least + 1 + self.random.below(64)
    }

    /// Lends so much, all of it full of leftovers.
    pub fn lend(&mut self, sizes: &Sizes) {
        let random = &mut self.random;
        self.work.choose(sizes.work, random);
        self.gaps.choose(sizes.gaps, random);
        self.answers.choose(sizes.answers, random);
        self.marks.choose(sizes.marks, random);
        self.pool.choose(sizes.pool, random);
        self.bootstraps.choose(sizes.bootstraps, random);
        self.class_name.choose(sizes.class_name, random);
    }

    pub fn clear_work_and_gaps(&mut self) {
        self.work.clear();
        self.gaps.clear();
    }

    pub fn lent(&mut self) -> Lent<'_> {
        Lent {
            work: self.work.lent(),
            gaps: self.gaps.lent(),
            answers: self.answers.lent(),
            marks: self.marks.lent(),
            pool: self.pool.lent(),
            bootstraps: self.bootstraps.lent(),
            class_name: self.class_name.lent(),
        }
    }

    pub fn restore_work_and_gaps(&mut self) {
        self.work.restore();
        self.gaps.restore();
    }

    pub fn restore_outputs(&mut self) {
        self.answers.restore();
        self.marks.restore();
        self.pool.restore();
        self.bootstraps.restore();
        self.class_name.restore();
    }
}

#[cfg(test)]
mod tests {
    use super::*;

    /// A lent slice of four bytes, after a change at a place counted from its start.
    fn changed(place: isize) -> Buffer<u8> {
        let mut buffer = Buffer::new();
        buffer.choose(4, &mut Random::new(1));
        let place = buffer.lent.start.strict_add_signed(place);
        buffer.now[place] ^= 1;
        buffer
    }

    #[test]
    fn a_change_in_a_guard_is_seen() {
        for place in [-(GUARD as isize), -1, 4, 3 + GUARD as isize] {
            let mut buffer = changed(place);
            assert!(!buffer.is(After::Untouched), "{place}");
            assert!(!buffer.is(After::Begins(&[])), "{place}");
            buffer.clear();
            assert!(!buffer.is(After::Zero), "{place}");
            buffer.restore();
            assert!(buffer.is(After::Untouched), "{place}");
        }
    }

    #[test]
    fn a_change_within_is_seen_but_in_the_front_that_is_told() {
        for place in 0..4 {
            let buffer = changed(place);
            assert!(!buffer.is(After::Untouched), "{place}");
            assert!(!buffer.is(After::Begins(&[])), "{place}");
        }
        let buffer = changed(1);
        assert!(buffer.is(After::Begins(buffer.front(2))));
        assert!(!buffer.is(After::Begins(buffer.front(1))));
        let other = [!buffer.front(1)[0]];
        assert!(!buffer.is(After::Begins(&other)));
    }

    #[test]
    fn zero_means_every_element() {
        let mut buffer = changed(0);
        buffer.clear();
        assert!(buffer.is(After::Zero));
        buffer.lent()[3] = 1;
        assert!(!buffer.is(After::Zero));
    }
}
