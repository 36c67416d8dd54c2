//! How marks are read and written.

use crate::printer::put_shown;
use nj_needs::Mark;
use std::alloc::{AllocError, Global};

/// Appends a line of the mark that a text denotes, and a line of its numbers, or its fault.
pub fn put_mark(alloc: Global, text: &mut Vec<u8>, subject: &[u8]) -> Result<(), AllocError> {
    match Mark::read(alloc, str::from_utf8(subject).unwrap_or("not UTF-8")) {
        Ok(mark) => {
            put_mark_text(alloc, text, &mark)?;
            text.extend_from_slice(b"\nnumbers:")?;
            put_numbers(alloc, text, mark.numbers())?;
        }
        Err(fault) => put_shown(alloc, text, &fault)?,
    }
    text.extend_from_slice(b"\n")
}

/// Appends a line of the mark of the numbers between spaces.
pub fn put_mark_of(alloc: Global, text: &mut Vec<u8>, asked: &str) -> Result<(), AllocError> {
    let mut numbers = Vec::new(alloc);
    for number in asked.split(' ') {
        numbers.push(number.parse().unwrap_or(0))?;
    }
    put_mark_text(alloc, text, &Mark::from_numbers(alloc, &numbers)?)?;
    text.extend_from_slice(b"\n")
}

/// Appends the text of a mark.
pub fn put_mark_text(alloc: Global, text: &mut Vec<u8>, mark: &Mark) -> Result<(), AllocError> {
    let written = mark.to_text(alloc)?;
    text.extend_from_slice(written.as_bytes())
}

/// Appends numbers, each after a space.
fn put_numbers(alloc: Global, text: &mut Vec<u8>, numbers: &[u64]) -> Result<(), AllocError> {
    for number in numbers {
        text.push(b' ')?;
        put_shown(alloc, text, number)?;
    }
    Ok(())
}
