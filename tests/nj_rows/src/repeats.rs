//! Texts that are repeated with other numbers.

use crate::blocks::first_of;
use std::alloc::{AllocError, Global};

/// The name of a file, and numbers from the first to the last, which may be smaller.
#[derive(Clone, Copy)]
pub(crate) struct Repeat<'r> {
    pub name: &'r str,
    first: u64,
    last: u64,
}

impl<'r> Repeat<'r> {
    /// A name and two numbers, with spaces between them.
    pub fn read(text: &'r str) -> Repeat<'r> {
        let (name, numbers) = first_of(text);
        let (first, last) = first_of(numbers);
        Repeat {
            name,
            first: first.parse().unwrap_or(0),
            last: last.parse().unwrap_or(0),
        }
    }

    /// How many numbers there are.
    pub fn count(&self) -> u64 {
        let (least, most) = (self.first.min(self.last), self.first.max(self.last));
        most.saturating_sub(least).saturating_add(1)
    }

    /// The number after the given count of steps.
    pub fn number(&self, step: u64) -> u64 {
        if self.first <= self.last {
            self.first.saturating_add(step)
        } else {
            self.first.saturating_sub(step)
        }
    }
}

/// A text with a number in place of each `<n>`, and the number before it in place of each `<n-1>`.
pub(crate) fn with_number(alloc: Global, text: &str, number: u64) -> Result<String, AllocError> {
    let before = format!(in alloc; "{}", number.saturating_sub(1))?;
    let number = format!(in alloc; "{number}")?;
    let text = text.replace(alloc, "<n>", number.as_str())?;
    text.replace(alloc, "<n-1>", before.as_str())
}
