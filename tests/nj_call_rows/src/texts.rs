//! The results of calls on single texts: paths, quotes, numbers and hashes.

use crate::printer::put_shown;
use nj_names::HashKeys;
use nj_rows::bytes_of;
use nj_text::{Lossy, clean_into, clean_path, is_clean, leading_number, quote_into, version_of};
use std::alloc::{AllocError, Global};

/// Appends the result of the given call for a text, as a line.
pub fn put_meant(
    alloc: Global,
    text: &mut Vec<u8>,
    call: &str,
    bytes: &[u8],
) -> Result<(), AllocError> {
    match call {
        "number" => match leading_number(bytes) {
            Some(number) => put_shown(alloc, text, &number)?,
            None => text.extend_from_slice(b"none")?,
        },
        "version" => {
            let (major, minor) = version_of(bytes);
            text.extend_from_slice(format!(in alloc; "{major}.{minor}")?.as_bytes())?;
        }
        "lossy" => put_shown(alloc, text, &Lossy(bytes))?,
        _ => quote_into(text, bytes)?,
    }
    text.extend_from_slice(b"\n")
}

/// Appends a path, cleaned, and whether it is clean already, a line each.
pub fn put_clean(alloc: Global, text: &mut Vec<u8>, path: &[u8]) -> Result<(), AllocError> {
    match clean_path(alloc, path) {
        Ok(clean) => text.extend_from_slice(&clean)?,
        Err(fault) => put_shown(alloc, text, &fault)?,
    }
    text.extend_from_slice(b"\n")?;
    if is_clean(path) {
        text.extend_from_slice(b"is clean\n")?;
    }
    Ok(())
}

/// Appends the results of the given call for words, one directly after another, as a line. A fault
/// is in brackets.
pub fn put_in_turn(
    alloc: Global,
    text: &mut Vec<u8>,
    call: &str,
    words: &[String],
) -> Result<(), AllocError> {
    for word in words {
        match call {
            "clean-into" => put_clean_after(alloc, text, word.as_bytes())?,
            _ => quote_into(text, word.as_bytes())?,
        }
    }
    text.extend_from_slice(b"\n")
}

/// Appends a path, cleaned, or its fault in brackets.
fn put_clean_after(alloc: Global, text: &mut Vec<u8>, path: &[u8]) -> Result<(), AllocError> {
    let Err(fault) = clean_into(text, path) else {
        return Ok(());
    };
    text.push(b'[')?;
    put_shown(alloc, text, &fault)?;
    text.extend_from_slice(b"]")
}

/// Appends the hash of a text in hexadecimal digits, by the keys of a number in front of it, else
/// by the default keys.
pub fn put_hash(alloc: Global, text: &mut Vec<u8>, asked: &str) -> Result<(), AllocError> {
    let (number, name) = asked.split_once(' ').unwrap_or((asked, ""));
    let keys = match number.parse() {
        Ok(number) => HashKeys::new(number),
        Err(_) => HashKeys::default(),
    };
    let hash = keys.hash_bytes(&bytes_of(alloc, name)?);
    text.extend_from_slice(format!(in alloc; "{hash:016x}\n")?.as_bytes())
}
