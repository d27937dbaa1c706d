//! A buffer lent to the library, with guards on both sides that must stay as they are.

use std::fmt::{Debug, Display};

/// Odd, so that a buffer of bytes does not begin at an even address either.
const GUARDS: usize = 13;

pub struct Lent<T> {
    buffer: Vec<T>,
    guard: T,
}

impl<T: Copy + PartialEq + Display + Debug> Lent<T> {
    /// A buffer with this content between guards of that value.
    pub fn new(content: &[T], guard: T) -> Lent<T> {
        let mut buffer = Vec::with_capacity(content.len() + 2 * GUARDS);
        buffer.extend([guard; GUARDS]);
        buffer.extend(content);
        buffer.extend([guard; GUARDS]);
        Lent { buffer, guard }
    }

    pub fn len(&self) -> usize {
        self.buffer.len() - 2 * GUARDS
    }

    pub fn slice(&self) -> &[T] {
        &self.buffer[GUARDS..GUARDS + self.len()]
    }

    pub fn slice_mut(&mut self) -> &mut [T] {
        let end = GUARDS + self.len();
        &mut self.buffer[GUARDS..end]
    }

    /// The pointer to lend. It is taken from the whole buffer, borrowed mutably, also for a buffer that is only read:
    /// what a faulty library writes there or beside it can then be seen.
    pub fn pointer(&mut self) -> *mut T {
        self.buffer[..].as_mut_ptr().wrapping_add(GUARDS)
    }

    /// Whether the content is now as expected and the guards are as they were.
    pub fn holds(&self, name: &str, expected: &[T]) -> Result<(), String> {
        let (before, rest) = self.buffer.split_at(GUARDS);
        let (content, after) = rest.split_at(self.len());
        if content != expected {
            let place = (0..content.len()).find(|&place| content[place] != expected[place]);
            let place = place.expect("the expected content has the buffer's length");
            return Err(format!(
                "{name}: {} at place {place}, expected {}",
                content[place], expected[place]
            ));
        }
        for (side, guards) in [("before", before), ("after", after)] {
            if guards.iter().any(|&guard| guard != self.guard) {
                return Err(format!("what stands {side} {name} was changed: {guards:?}"));
            }
        }
        Ok(())
    }
}
