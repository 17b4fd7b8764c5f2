//! Buffers with guard words on both sides.

use std::fmt;

/// Odd, so that bytes lie unaligned.
const GUARD: usize = 7;

/// What a buffer can be made of.
pub trait Word: Copy + PartialEq + fmt::Debug {
    const GUARD: Self;
    const ZERO: Self;
}

impl Word for u8 {
    const GUARD: u8 = 0xa5;
    const ZERO: u8 = 0;
}

impl Word for u16 {
    const GUARD: u16 = 0xa5c3;
    const ZERO: u16 = 0;
}

/// A buffer to lend, with guards before and after it. Two of them are equal
/// only if the guards are, too.
#[derive(Clone, PartialEq, Eq)]
pub struct Guarded<T>(Vec<T>);

impl<T: Word> Guarded<T> {
    pub fn new(content: &[T]) -> Guarded<T> {
        let guard = [T::GUARD; GUARD];
        Guarded([&guard, content, &guard].concat())
    }

    pub fn lend(&self) -> &[T] {
        &self.0[GUARD..self.0.len() - GUARD]
    }

    pub fn lend_mut(&mut self) -> &mut [T] {
        let end = self.0.len() - GUARD;
        &mut self.0[GUARD..end]
    }

    /// Forgets the content, where document 01 leaves it open; the guards stay.
    pub fn forget(&mut self) {
        self.lend_mut().fill(T::ZERO);
    }
}

/// The content, and the guards only if they have changed.
impl<T: Word> fmt::Debug for Guarded<T> {
    fn fmt(&self, f: &mut fmt::Formatter) -> fmt::Result {
        write!(f, "{:?}", self.lend())?;
        let (before, after) = (&self.0[..GUARD], &self.0[self.0.len() - GUARD..]);
        if before.iter().chain(after).any(|&word| word != T::GUARD) {
            write!(f, " with guards changed to {before:?} and {after:?}")?;
        }
        Ok(())
    }
}
