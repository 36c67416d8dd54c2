//! The contents of deps logs.

use crate::printer::put_shown;
use nj_deps::{DepsLog, DepsLogFault, LoggedOutput, PathNo};
use nj_rows::log_of;
use std::alloc::{AllocError, Global};

/// Appends an outcome for the deps log of the given parts, or its fault: `deps-log`, its whole
/// contents, `cut-log`, those of the log cut off at each byte, or `deps-of PATH`, its entry for the
/// output at `PATH`.
pub fn put_of_log(
    alloc: Global,
    text: &mut Vec<u8>,
    parts: &[u8],
    kind: &str,
    path: &str,
) -> Result<(), AllocError> {
    let bytes = log_of(alloc, str::from_utf8(parts).unwrap_or("text not UTF-8"))?;
    match kind {
        "deps-log" => text.extend_from_slice(&contents_of(alloc, &bytes)?),
        "cut-log" => put_cuts(alloc, text, &bytes),
        _ => put_entry(alloc, text, &bytes, path),
    }
}

/// The contents of a log, or its fault, as lines.
fn contents_of(alloc: Global, bytes: &[u8]) -> Result<Vec<u8>, AllocError> {
    let mut text = Vec::new(alloc);
    match DepsLog::read(alloc, bytes) {
        Ok(log) => put_log(alloc, &mut text, &log)?,
        Err(fault) => put_fault(alloc, &mut text, &fault)?,
    }
    Ok(text)
}

/// Appends the contents of a log that is cut off at each byte. Sizes that follow each other and
/// have the same contents share them, after a line with the first and the last of the sizes.
fn put_cuts(alloc: Global, text: &mut Vec<u8>, bytes: &[u8]) -> Result<(), AllocError> {
    let mut first = 0_usize;
    let mut contents = contents_of(alloc, b"")?;
    for size in 1..=bytes.len() {
        let next = contents_of(alloc, &bytes[..size])?;
        if next != contents {
            put_cut(alloc, text, first, size - 1, &contents)?;
            first = size;
            contents = next;
        }
    }
    put_cut(alloc, text, first, bytes.len(), &contents)
}

/// Appends the contents of a log that is cut off at the given sizes.
fn put_cut(
    alloc: Global,
    text: &mut Vec<u8>,
    first: usize,
    last: usize,
    contents: &[u8],
) -> Result<(), AllocError> {
    text.extend_from_slice(format!(in alloc; "{first} to {last}:\n")?.as_bytes())?;
    text.extend_from_slice(contents)
}

/// Appends the entry of a log for the output at the given path, or its fault.
fn put_entry(
    alloc: Global,
    text: &mut Vec<u8>,
    bytes: &[u8],
    path: &str,
) -> Result<(), AllocError> {
    match DepsLog::read(alloc, bytes) {
        Ok(log) => put_output_at(alloc, text, &log, path.as_bytes()),
        Err(fault) => put_fault(alloc, text, &fault),
    }
}

/// Appends the text of a fault, as a line.
fn put_fault(alloc: Global, text: &mut Vec<u8>, fault: &DepsLogFault) -> Result<(), AllocError> {
    put_shown(alloc, text, fault)?;
    text.extend_from_slice(b"\n")
}

/// Appends the outputs, and as a line how many bytes were read, and whether that is the whole log.
fn put_log(alloc: Global, text: &mut Vec<u8>, log: &DepsLog) -> Result<(), AllocError> {
    for index in 0..log.output_count() {
        put_output(alloc, text, log, log.output(index))?;
    }
    let part = if log.is_whole() { "whole" } else { "not whole" };
    let size = log.size();
    text.extend_from_slice(format!(in alloc; "{size} bytes, {part}\n")?.as_bytes())
}

/// Appends the output at the given path.
fn put_output_at(
    alloc: Global,
    text: &mut Vec<u8>,
    log: &DepsLog,
    path: &[u8],
) -> Result<(), AllocError> {
    let Some(number) = log.number(path) else {
        return text.extend_from_slice(b"no path\n");
    };
    match log.output_of(number) {
        Some(output) => put_output(alloc, text, log, output),
        None => text.extend_from_slice(b"no output\n"),
    }
}

/// Appends a line of an output with its time, and a line of each path on which it depends.
fn put_output(
    alloc: Global,
    text: &mut Vec<u8>,
    log: &DepsLog,
    output: LoggedOutput<'_>,
) -> Result<(), AllocError> {
    text.extend_from_slice(path_of(log, output.output))?;
    text.extend_from_slice(format!(in alloc; " at {}:\n", output.time)?.as_bytes())?;
    for input in output.inputs {
        text.extend_from_slice(b"  ")?;
        text.extend_from_slice(path_of(log, *input))?;
        text.push(b'\n')?;
    }
    Ok(())
}

/// The path with the given number; `?` if the log has none.
fn path_of(log: &DepsLog, number: PathNo) -> &[u8] {
    if (number.0 as usize) < log.path_count() {
        log.path(number)
    } else {
        b"?"
    }
}
