//! Slots: the gaps between raw definitions, and the three positions.

/// The highest slot that an ldc instruction reaches.
pub const HIGHEST_LDC_SLOT: u16 = 255;

/// Free slots in a row. A gap that is used up begins behind its end.
#[derive(Clone, Copy, Debug, PartialEq, Eq)]
struct Gap {
    first: u16,
    last: u16,
}

impl Gap {
    fn length(&self) -> u16 {
        self.last + 1 - self.first
    }
}

pub struct Slots {
    highest: u16,
    gaps: Vec<Gap>,
    odd: usize,
    wide: usize,
    plain: usize,
}

impl Slots {
    /// "Gaps are the longest free runs between raw definitions, rising. Three positions start at the first gap."
    pub fn between(raw_held: &[(u16, u16)], highest: u16) -> Self {
        let mut gaps = vec![];
        let mut first = 1;
        for (held_first, held_last) in raw_held {
            if first < *held_first {
                let last = held_first - 1;
                gaps.push(Gap { first, last });
            }
            first = held_last + 1;
        }
        if first <= highest {
            let last = highest;
            gaps.push(Gap { first, last });
        }
        Slots {
            highest,
            gaps,
            odd: 0,
            wide: 0,
            plain: 0,
        }
    }

    /// A slot for a constant that has none yet, if there is one.
    pub fn give(&mut self, wide: bool, ldc: bool) -> Option<u16> {
        match wide {
            true => self.give_wide(),
            false => self.give_odd(ldc).or_else(|| self.give_plain(ldc)),
        }
    }

    /// "From the odd position skip gaps of even length (0 too). An odd gap gives its first slot and the position moves on, unless ldc
    /// was asked and that slot is above 255."
    fn give_odd(&mut self, ldc: bool) -> Option<u16> {
        skip(&self.gaps, &mut self.odd, |gap| gap.length() % 2 == 0);
        let slot = take(&mut self.gaps, self.odd, 1, ldc)?;
        self.odd += 1;
        Some(slot)
    }

    /// "The first slot of the first gap not empty, under the same ldc rule."
    fn give_plain(&mut self, ldc: bool) -> Option<u16> {
        skip(&self.gaps, &mut self.plain, |gap| gap.length() == 0);
        take(&mut self.gaps, self.plain, 1, ldc)
    }

    /// "The first two slots of the first gap that has two, ldc or not."
    fn give_wide(&mut self) -> Option<u16> {
        skip(&self.gaps, &mut self.wide, |gap| gap.length() < 2);
        take(&mut self.gaps, self.wide, 2, false)
    }

    /// "The count is the first free slot of the gap that ends at" the highest slot, with one more than that "if that gap is used up or
    /// never was".
    pub fn count(&self) -> u16 {
        match self.gaps.last() {
            Some(gap) if gap.last == self.highest && gap.length() > 0 => gap.first,
            _ => self.highest + 1,
        }
    }
}

fn skip(gaps: &[Gap], position: &mut usize, unfit: fn(&Gap) -> bool) {
    while gaps.get(*position).is_some_and(unfit) {
        *position += 1;
    }
}

/// Takes the first slots of the gap at a position; none past the end, or where ldc was asked and the slot is above 255.
fn take(gaps: &mut [Gap], position: usize, slots: u16, ldc: bool) -> Option<u16> {
    let gap = gaps.get_mut(position)?;
    let slot = gap.first;
    if ldc && slot > HIGHEST_LDC_SLOT {
        return None;
    }
    gap.first += slots;
    Some(slot)
}

#[cfg(test)]
mod tests {
    use super::*;
    use crate::settings::HIGHEST_SLOT;

    fn free(slots: &Slots) -> u32 {
        slots.gaps.iter().map(|gap| u32::from(gap.length())).sum()
    }

    fn all_between(raw_held: &[(u16, u16)]) -> Slots {
        Slots::between(raw_held, HIGHEST_SLOT)
    }

    /// "Raw-held, given-out and free slots come to 65,534", or to the highest slot, "a wide one as two".
    fn conserved(raw_held: &[(u16, u16)], highest: u16) {
        let mut slots = Slots::between(raw_held, highest);
        let of_raw = raw_held.iter().map(|(first, last)| last + 1 - first);
        let mut held: u32 = of_raw.map(u32::from).sum();
        assert_eq!(held + free(&slots), highest.into());
        for wide in [false, true, false, false, true, true, false] {
            for ldc in [true, false] {
                let given = slots.give(wide, ldc).is_some();
                held += u32::from(given) * (1 + u32::from(wide));
                assert_eq!(held + free(&slots), highest.into());
            }
        }
    }

    #[test]
    fn slots_are_conserved() {
        conserved(&[(1, 2), (4, 4), (9, 9), (300, 65_533)], HIGHEST_SLOT);
        for highest in 9..40 {
            conserved(&[(1, 2), (4, 4), (9, 9)], highest);
        }
        conserved(&[], 1);
    }

    /// Gaps 1 to 4 and 6 to 65534, an even one and an odd one.
    #[test]
    fn odd_gaps_come_first() {
        let mut slots = all_between(&[(5, 5)]);
        let given: Vec<_> = (0..3).map(|_| slots.give(false, false)).collect();
        assert_eq!(given, [Some(6), Some(1), Some(2)]);
        assert_eq!(slots.count(), 7);
    }

    /// The highest slot says whether the last gap is odd.
    #[test]
    fn the_last_gap_ends_at_the_highest_slot() {
        let first = |highest| Slots::between(&[(2, 2), (5, 5)], highest).give(false, false);
        assert_eq!(first(6), Some(1));
        let mut slots = Slots::between(&[(3, 3), (6, 6)], 9);
        assert_eq!(slots.give(false, false), Some(7));
        assert_eq!(slots.count(), 8);
        assert_eq!(Slots::between(&[(3, 3)], 3).count(), 4);
    }

    /// The odd gap begins above 255, and so the plain position serves ldc, and the wide one doesn't care.
    #[test]
    fn ldc_keeps_low() {
        let mut slots = all_between(&[(1, 253), (256, 256), (258, 65_534)]);
        let given: Vec<_> = (0..3).map(|_| slots.give(false, true)).collect();
        assert_eq!(given, [Some(254), Some(255), None]);
        assert_eq!(slots.give(false, false), Some(257));
        assert_eq!(slots.give(false, false), None);
        assert_eq!(all_between(&[(1, 255)]).give(true, true), Some(256));
    }

    #[test]
    fn counts() {
        assert_eq!(all_between(&[]).count(), 1);
        assert_eq!(all_between(&[(1, 65_534)]).count(), 65_535);
        assert_eq!(all_between(&[(65_533, 65_534)]).count(), 65_535);
        let mut last = all_between(&[(1, 65_533)]);
        assert_eq!(last.count(), 65_534);
        assert_eq!(last.give(false, false), Some(65_534));
        assert_eq!(last.count(), 65_535);
    }
}
