//! Runs of `commands` in pages.

use nj_cli::{MemoryFiles, MemorySink, run_words};
use nj_rows::{Given, words_of};
use std::alloc::{AllocError, Global};

/// Appends the output of pages with the given number of commands, each resumed at the mark of the
/// page before, and the mark that the last one reports.
pub(crate) fn put_pages(
    alloc: Global,
    text: &mut Vec<u8>,
    given: &Given,
    takes: &str,
) -> Result<(), AllocError> {
    let mut files = given.source(alloc)?;
    let mut mark = String::from_str(alloc, "start")?;
    for take in takes.split(' ') {
        mark = put_page(alloc, text, &mut files, take, &mark)?;
    }
    put_mark(text, &mark)
}

/// Appends a mark as a line; nothing if it is empty.
fn put_mark(text: &mut Vec<u8>, mark: &str) -> Result<(), AllocError> {
    if mark.is_empty() {
        return Ok(());
    }
    text.extend_from_slice(mark.as_bytes())?;
    text.extend_from_slice(b"\n")
}

/// Appends the output of a page with the given number of commands, from a mark on. Returns the mark
/// that it reports.
fn put_page(
    alloc: Global,
    text: &mut Vec<u8>,
    files: &mut MemoryFiles,
    take: &str,
    mark: &str,
) -> Result<String, AllocError> {
    let words = format!(in alloc; "-t commands --take {take} --resume {mark}")?;
    let words = words_of(alloc, words.as_str())?;
    put_run_of(alloc, text, files, &words)
}

/// Appends the output of a run. Returns the mark that it reports.
fn put_run_of(
    alloc: Global,
    text: &mut Vec<u8>,
    files: &mut MemoryFiles,
    words: &[String],
) -> Result<String, AllocError> {
    let mut output = MemorySink::new(alloc, None);
    let mut error = MemorySink::new(alloc, None);
    run_words(alloc, files, words, &mut output, &mut error);
    text.extend_from_slice(output.bytes())?;
    mark_reported(alloc, error.bytes())
}

/// The mark that a run reported; an empty text if it reported none.
fn mark_reported(alloc: Global, reported: &[u8]) -> Result<String, AllocError> {
    let line = str::from_utf8(reported).unwrap_or("not UTF-8");
    let mark = line.strip_prefix("mark ").unwrap_or(line);
    String::from_str(alloc, mark.trim_end())
}
