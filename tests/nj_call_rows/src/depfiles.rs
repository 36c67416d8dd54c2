//! What depfiles name.

use crate::printer::put_shown;
use nj_depfiles::{Depfile, DepfileFault};
use std::alloc::{AllocError, Global};

/// Appends a line for each target and for each input of a depfile, or its fault.
pub(crate) fn put_depfile(
    alloc: Global,
    text: &mut Vec<u8>,
    bytes: &[u8],
) -> Result<(), AllocError> {
    match Depfile::read(alloc, bytes) {
        Ok(depfile) => put_names(text, &depfile),
        Err(DepfileFault::OutOfMemory) => Err(AllocError),
        Err(fault) => {
            put_shown(alloc, text, &fault)?;
            text.extend_from_slice(b"\n")
        }
    }
}

/// Appends a line for each target and for each input.
fn put_names(text: &mut Vec<u8>, depfile: &Depfile) -> Result<(), AllocError> {
    for number in 0..depfile.target_count() {
        put_name(text, b"target ", depfile.target(number))?;
    }
    for number in 0..depfile.input_count() {
        put_name(text, b"input ", depfile.input(number))?;
    }
    Ok(())
}

/// Appends a line with a word before the name.
fn put_name(text: &mut Vec<u8>, word: &[u8], name: &[u8]) -> Result<(), AllocError> {
    text.extend_from_slice(word)?;
    text.extend_from_slice(name)?;
    Ok(text.push(b'\n')?)
}
