//! The results of sources and tables of files.

use crate::printer::{put_answer, put_bytes, put_shown, steps_of};
use nj_scope::{FileSource, FileTable, MemoryFiles};
use std::alloc::{AllocError, Global};
use std::rc::RcSlice;

/// Files in memory, a table of their readings, and the bytes that it shared first.
#[derive(Drop)]
struct Sources {
    files: MemoryFiles,
    table: FileTable,
    held: Option<RcSlice<u8>>,
}

/// Appends the steps in which files are added and read: each call with its result.
pub fn put_sources(alloc: Global, text: &mut Vec<u8>, wanted: &[u8]) -> Result<(), AllocError> {
    let files = MemoryFiles::new(alloc);
    let table = FileTable::new(alloc, files.hash_keys());
    let mut sources = Sources {
        files,
        table,
        held: None,
    };
    put_steps(alloc, text, &mut sources, steps_of(wanted))
}

fn put_steps(
    alloc: Global,
    text: &mut Vec<u8>,
    sources: &mut Sources,
    steps: &str,
) -> Result<(), AllocError> {
    for step in steps.lines() {
        let (asked, _outcome) = step.split_once(": ").unwrap_or((step, ""));
        let (call, given) = asked.split_once(' ').unwrap_or((asked, ""));
        text.extend_from_slice(asked.as_bytes())?;
        put_step(alloc, text, sources, call, given)?;
        text.push(b'\n')?;
    }
    Ok(())
}

/// Adds a file, sets which reading fails, or makes a call and appends its result.
fn put_step(
    alloc: Global,
    text: &mut Vec<u8>,
    sources: &mut Sources,
    call: &str,
    given: &str,
) -> Result<(), AllocError> {
    match call {
        "add" => {
            let (path, bytes) = given.split_once('=').unwrap_or((given, ""));
            sources.files.add(path, bytes.as_bytes())
        }
        "fail" => {
            sources.files.fail_at(given.parse().unwrap_or(0));
            Ok(())
        }
        _ => {
            text.extend_from_slice(b": ")?;
            put_outcome(alloc, text, sources, call, given)
        }
    }
}

fn put_outcome(
    alloc: Global,
    text: &mut Vec<u8>,
    sources: &mut Sources,
    call: &str,
    path: &str,
) -> Result<(), AllocError> {
    match call {
        "read" => put_read(alloc, text, &mut sources.files, path),
        "open" => put_opened(alloc, text, sources, path),
        "held" => put_bytes(text, sources.held.as_ref().map(|bytes| bytes.as_slice())),
        "has" => put_answer(text, sources.table.has(path)),
        "get" => put_bytes(text, sources.table.get(path)),
        "count" => put_shown(alloc, text, &sources.table.count()),
        _ => text.extend_from_slice(b"no call"),
    }
}

/// Appends the result of reading a path.
fn put_read(
    alloc: Global,
    text: &mut Vec<u8>,
    files: &mut MemoryFiles,
    path: &str,
) -> Result<(), AllocError> {
    match files.read(alloc, path) {
        Ok(Some(bytes)) => put_bytes(text, Some(&bytes)),
        Ok(None) => put_bytes(text, None),
        Err(fault) => put_shown(alloc, text, &fault),
    }
}

/// Appends the result of opening a path. The first bytes that come are held.
fn put_opened(
    alloc: Global,
    text: &mut Vec<u8>,
    sources: &mut Sources,
    path: &str,
) -> Result<(), AllocError> {
    match sources.table.open(alloc, &mut sources.files, path) {
        Ok(Some(bytes)) => {
            put_bytes(text, Some(bytes.as_slice()))?;
            if sources.held.is_none() {
                sources.held = Some(bytes);
            }
            Ok(())
        }
        Ok(None) => put_bytes(text, None),
        Err(fault) => put_shown(alloc, text, &fault),
    }
}
