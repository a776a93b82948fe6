//! Memory that is lent to a call, with sentinels before, in and after it.

use std::ops::Range;

const MARGIN: usize = 9;

/// What memory holds: numbers of a list, or bytes.
pub trait Element: Copy + PartialEq {
    /// The value at a place before a call. Two places that follow each other have different ones.
    fn sentinel(place: usize) -> Self;
}

impl Element for i64 {
    /// A different value at each place, none of which a model gives.
    fn sentinel(place: usize) -> i64 {
        0x5EED_0000_0000_0000 + 0x0001_0003 * place as i64
    }
}

impl Element for u8 {
    fn sentinel(place: usize) -> u8 {
        (place % 251) as u8
    }
}

/// Memory of which the middle is lent.
#[derive(Clone, Debug)]
pub struct Lent<T = i64> {
    memory: Vec<T>,
    length: usize,
    paint: usize,
}

impl<T: Element> Lent<T> {
    pub fn new(length: usize) -> Lent<T> {
        Lent::painted(length, 0)
    }

    /// With other sentinels: those of the paints 0 and 1 differ at every place, so that no byte that is written looks like both.
    pub fn painted(length: usize, paint: usize) -> Lent<T> {
        let memory = (0..length + 2 * MARGIN).map(|place| T::sentinel(place + paint)).collect();
        Lent { memory, length, paint }
    }

    fn place(&self) -> Range<usize> {
        MARGIN..MARGIN + self.length
    }

    /// The lent part.
    pub fn part(&mut self) -> &mut [T] {
        let place = self.place();
        &mut self.memory[place]
    }

    /// The lent part with these values, for a call that reads it.
    pub fn with(values: &[T]) -> Lent<T> {
        let mut lent = Lent::new(values.len());
        lent.part().copy_from_slice(values);
        lent
    }

    /// What the lent part holds now.
    pub fn now(&self) -> &[T] {
        &self.memory[self.place()]
    }

    /// No element has changed but the first so many of the lent part.
    pub fn is_untouched_behind(&self, count: usize) -> bool {
        let changed = MARGIN..MARGIN + count;
        (0..self.memory.len()).all(|place| changed.contains(&place) || self.memory[place] == T::sentinel(place + self.paint))
    }

    /// No element has changed, lent or not.
    pub fn is_untouched(&self) -> bool {
        self.is_untouched_behind(0)
    }

    /// No element beside the lent part has changed.
    pub fn is_untouched_beside(&self) -> bool {
        self.is_untouched_behind(self.length)
    }
}
