//! Deps logs from texts.
//!
//! A line is a part of a log: `open VERSION`, its first line and the version; `path NUMBER PATH`, the
//! record of a path; `deps OUTPUT TIME INPUT..`, the record of an output; `words NUMBER..` and
//! `bytes NUMBER..`, numbers of four bytes and of one; `text TEXT`, a text without its line end.

use crate::blocks::first_of;
use std::alloc::{AllocError, Global};

/// The bit by which records of outputs differ from those of paths.
const OUTPUT: u32 = 1 << 31;

/// The log of the given parts.
pub fn log_of(alloc: Global, parts: &str) -> Result<Vec<u8>, AllocError> {
    let mut log = Vec::new(alloc);
    for part in parts.lines() {
        let (kind, rest) = first_of(part);
        put_part(alloc, &mut log, kind, rest)?;
    }
    Ok(log)
}

/// Appends a part of the given kind.
fn put_part(alloc: Global, log: &mut Vec<u8>, kind: &str, rest: &str) -> Result<(), AllocError> {
    match kind {
        "open" => {
            log.extend_from_slice(b"# ninjadeps\n")?;
            put_words(log, rest)
        }
        "path" => put_path(alloc, log, rest),
        "deps" => put_dependencies(alloc, log, rest),
        "words" => put_words(log, rest),
        "bytes" => put_bytes(log, rest),
        _ => log.extend_from_slice(rest.as_bytes()),
    }
}

/// Appends numbers of four bytes, the lowest byte first.
fn put_words(log: &mut Vec<u8>, numbers: &str) -> Result<(), AllocError> {
    for number in numbers.split(' ') {
        if let Ok(word) = number.parse::<u32>() {
            log.extend_from_slice(&word.to_le_bytes())?;
        }
    }
    Ok(())
}

/// Appends numbers of one byte.
fn put_bytes(log: &mut Vec<u8>, numbers: &str) -> Result<(), AllocError> {
    for number in numbers.split(' ') {
        if let Ok(byte) = number.parse::<u8>() {
            log.push(byte)?;
        }
    }
    Ok(())
}

/// Appends the record of a path: the path, zero bytes up to a multiple of four, and the complement
/// of its number.
fn put_path(alloc: Global, log: &mut Vec<u8>, record: &str) -> Result<(), AllocError> {
    let (number, path) = first_of(record);
    let number: u32 = number.parse().unwrap_or(0);
    let mut content = Vec::from_slice(alloc, path.as_bytes())?;
    content.extend_from_slice(padding_of(path))?;
    content.extend_from_slice(&(!number).to_le_bytes())?;
    put_record(log, 0, &content)
}

/// The zero bytes after a path.
fn padding_of(path: &str) -> &'static [u8] {
    match path.len() % 4 {
        1 => b"\0\0\0",
        2 => b"\0\0",
        3 => b"\0",
        _ => b"",
    }
}

/// Appends the record of an output: its number, a time of eight bytes, and the numbers of its
/// inputs.
fn put_dependencies(alloc: Global, log: &mut Vec<u8>, record: &str) -> Result<(), AllocError> {
    let (output, rest) = first_of(record);
    let (time, inputs) = first_of(rest);
    let time: u64 = time.parse().unwrap_or(0);
    let mut content = Vec::new(alloc);
    put_words(&mut content, output)?;
    content.extend_from_slice(&time.to_le_bytes())?;
    put_words(&mut content, inputs)?;
    put_record(log, OUTPUT, &content)
}

/// Appends a record: the size of its content, with the bit of its kind, and the content.
fn put_record(log: &mut Vec<u8>, kind: u32, content: &[u8]) -> Result<(), AllocError> {
    let size = u32::try_from(content.len()).unwrap_or(0);
    log.extend_from_slice(&(kind | size).to_le_bytes())?;
    log.extend_from_slice(content)
}
