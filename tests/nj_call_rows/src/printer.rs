//! The results of calls, as text.

use nj_manifest::{Part, Word};
use std::alloc::{AllocError, Global};
use std::fmt::Display;

/// The steps of a row whose wanted lines name the calls to make, a line each.
pub fn steps_of(wanted: &[u8]) -> &str {
    match str::from_utf8(wanted) {
        Ok("") | Err(_) => "no steps",
        Ok(steps) => steps,
    }
}

/// Appends a value as it is displayed.
pub fn put_shown(
    alloc: Global,
    text: &mut Vec<u8>,
    value: &impl Display,
) -> Result<(), AllocError> {
    let shown = format!(in alloc; "{value}")?;
    text.extend_from_slice(shown.as_bytes())
}

/// Appends `yes` or `no`.
pub fn put_answer(text: &mut Vec<u8>, answer: bool) -> Result<(), AllocError> {
    text.extend_from_slice(if answer { b"yes".as_slice() } else { b"no" })
}

/// Appends bytes in brackets; `none` without bytes.
pub fn put_bytes(text: &mut Vec<u8>, bytes: Option<&[u8]>) -> Result<(), AllocError> {
    let Some(bytes) = bytes else {
        return text.extend_from_slice(b"none");
    };
    put_part(text, Part::Bytes(bytes))
}

/// Appends a part of a word: its bytes in brackets, a name as `${name}`.
pub fn put_part(text: &mut Vec<u8>, part: Part<'_>) -> Result<(), AllocError> {
    let (before, bytes, after) = match part {
        Part::Bytes(bytes) => (b"[".as_slice(), bytes, b"]".as_slice()),
        Part::Name(name) => (b"${".as_slice(), name, b"}".as_slice()),
    };
    text.extend_from_slice(before)?;
    text.extend_from_slice(bytes)?;
    text.extend_from_slice(after)
}

/// Appends a word or a value: its place, and its parts.
pub fn put_word(alloc: Global, text: &mut Vec<u8>, word: &Word<'_>) -> Result<(), AllocError> {
    put_shown(alloc, text, &word.spot)?;
    for part in word.parts.as_slice() {
        put_part(text, *part)?;
    }
    Ok(())
}
