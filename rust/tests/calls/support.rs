//! Lent memory between guards, and the number of a safe function's answer.
use kavurehy::Refusal;

/// An element of lent memory: what a place holds before a call.
pub trait Element: Copy + PartialEq + std::fmt::Debug {
    fn pattern(place: usize) -> Self;
}

impl Element for u8 {
    fn pattern(place: usize) -> u8 {
        (place * 37 + 101) as u8
    }
}

impl Element for u32 {
    fn pattern(place: usize) -> u32 {
        (place as u32).wrapping_mul(2654435761) ^ 0x5bd1e995
    }
}

impl Element for i32 {
    fn pattern(place: usize) -> i32 {
        u32::pattern(place) as i32
    }
}

/// Lent memory with a pattern in it, before it and after it.
pub struct Lent<T> {
    all: Vec<T>,
    length: usize,
}

const GUARD: usize = 5;

impl<T: Element> Lent<T> {
    pub fn new(length: usize) -> Lent<T> {
        let all = (0..length + 2 * GUARD).map(T::pattern).collect();
        Lent { all, length }
    }

    pub fn memory(&mut self) -> &mut [T] {
        &mut self.all[GUARD..GUARD + self.length]
    }

    /// These elements were written, and nothing else.
    pub fn wrote(&self, elements: &[T]) {
        let end = GUARD + elements.len();
        assert_eq!(self.all[GUARD..end], *elements, "what was written");
        self.kept_beyond(elements.len());
    }

    /// Nothing was written after the first n elements, or before the memory.
    pub fn kept_beyond(&self, n: usize) {
        for (place, x) in self.all.iter().enumerate() {
            if place < GUARD || place >= GUARD + n {
                assert_eq!(
                    *x,
                    T::pattern(place),
                    "memory at {place} of {}, {n} counted",
                    self.length
                );
            }
        }
    }
}

/// The number of a safe function's answer: that of the refusal, or 0.
pub fn number<T>(answer: &Result<T, Refusal>) -> u32 {
    answer.as_ref().err().map_or(0, |refusal| refusal.number())
}
