//! What tests of a build name.

use nj_tests::{names_of, pieces_of};
use std::alloc::{AllocError, Global};

/// Appends a line for each piece of a word, without duplicates.
pub(crate) fn put_pieces(alloc: Global, text: &mut Vec<u8>, word: &[u8]) -> Result<(), AllocError> {
    let pieces = pieces_of(alloc, word)?;
    for (index, piece) in pieces.iter().enumerate() {
        if !pieces[..index].contains(piece) {
            text.extend_from_slice(piece)?;
            text.extend_from_slice(b"\n")?;
        }
    }
    Ok(())
}

/// Appends a line for each path that a word may name, after the build directory and that of the
/// test, which may be empty.
pub(crate) fn put_names(
    alloc: Global,
    text: &mut Vec<u8>,
    words: &[String],
) -> Result<(), AllocError> {
    let [build, folder, word] = words else {
        return Ok(());
    };
    let folder = match folder.as_bytes() {
        [] => None,
        bytes => Some(bytes),
    };
    let names = names_of(alloc, build.as_bytes(), folder, word.as_bytes())?;
    for (index, name) in names.iter().enumerate() {
        if !names[..index].contains(name) {
            text.extend_from_slice(name)?;
            text.extend_from_slice(b"\n")?;
        }
    }
    Ok(())
}
