//! Paths that globs match.

use crate::printer::put_shown;
use nj_globs::{Glob, GlobFault};
use std::alloc::{AllocError, Global};

/// Appends a line for each path after the pattern that it matches, or why the pattern is not a
/// glob.
pub(crate) fn put_matched(
    alloc: Global,
    text: &mut Vec<u8>,
    words: &[String],
) -> Result<(), AllocError> {
    let Some((pattern, paths)) = words.split_first() else {
        return Ok(());
    };
    match Glob::read(alloc, pattern.as_bytes()) {
        Ok(mut glob) => put_paths(text, &mut glob, paths),
        Err(GlobFault::OutOfMemory) => Err(AllocError),
        Err(fault) => {
            put_shown(alloc, text, &fault)?;
            text.extend_from_slice(b"\n")
        }
    }
}

/// Appends a line for each path that the glob matches.
fn put_paths(text: &mut Vec<u8>, glob: &mut Glob, paths: &[String]) -> Result<(), AllocError> {
    for path in paths {
        if glob.matches(path.as_bytes()) {
            text.extend_from_slice(path.as_bytes())?;
            text.extend_from_slice(b"\n")?;
        }
    }
    Ok(())
}
