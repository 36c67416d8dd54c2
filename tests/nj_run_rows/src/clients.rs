//! Work of a client of the libraries, all of whose faults go into one error.

use crate::walks::put_walk;
use nj_graph::{Graph, GraphFault, TextFault, load, pick_target};
use nj_rows::{Given, bytes_of, first_of};
use nj_tools::{Error, Mark, MemorySink, SinkFault, ToolFault, write_compdb};
use std::alloc::{AllocError, Global};

/// Appends the results of work on the graph of the files, or the text of its error: `turns`, a
/// walk, or `client`, several calls.
pub(crate) fn put_work(
    alloc: Global,
    text: &mut Vec<u8>,
    given: &Given,
    kind: &str,
    words: &str,
) -> Result<(), AllocError> {
    match put_work_or_fail(alloc, text, given, kind, words) {
        Ok(()) => Ok(()),
        Err(error) => put_error(alloc, text, &error),
    }
}

/// Appends the text of an error, as a line.
fn put_error(alloc: Global, text: &mut Vec<u8>, error: &Error) -> Result<(), AllocError> {
    text.extend_from_slice(format!(in alloc; "{error}\n")?.as_bytes())
}

/// Appends the results of work on the graph of the files.
fn put_work_or_fail(
    alloc: Global,
    text: &mut Vec<u8>,
    given: &Given,
    kind: &str,
    words: &str,
) -> Result<(), Error> {
    let mut files = given.source(alloc)?;
    let loaded = load(alloc, &mut files, "build.ninja")?;
    put_work_on(alloc, text, loaded.graph(), kind, words)
}

/// Appends the results of work on a graph.
fn put_work_on(
    alloc: Global,
    text: &mut Vec<u8>,
    graph: &Graph,
    kind: &str,
    words: &str,
) -> Result<(), Error> {
    match kind {
        "turns" => put_walk(alloc, text, graph, words),
        _ => put_asked(alloc, text, graph, words),
    }
}

/// Picks a target, reads a mark, and writes the compilation database within a limit. Appends `done`
/// if nothing fails.
fn put_asked(alloc: Global, text: &mut Vec<u8>, graph: &Graph, words: &str) -> Result<(), Error> {
    let (target, words) = first_of(words);
    let (mark, limit) = first_of(words);
    pick_target(alloc, graph, &bytes_of(alloc, target)?)?;
    Mark::read(alloc, mark)?;
    ask_for_database(alloc, graph, limit.parse().ok())?;
    text.extend_from_slice(b"done\n")?;
    Ok(())
}

/// Writes the compilation database to a sink with a limit.
fn ask_for_database(alloc: Global, graph: &Graph, limit: Option<usize>) -> Result<(), Error> {
    let mut sink = MemorySink::new(alloc, limit);
    write_compdb(alloc, graph, ".", &[], false, &mut sink)?;
    Ok(())
}

/// Appends the faults of several calls, as one type of error, a line each, and after them two
/// faults of tools.
pub(crate) fn put_taken_in(alloc: Global, text: &mut Vec<u8>) -> Result<(), AllocError> {
    let lack = nj_graph::Error::from(GraphFault::out_of_memory());
    put_shown(alloc, text, lack.into())?;
    let lack_in_text = nj_graph::Error::from(TextFault::OutOfMemory);
    put_shown(alloc, text, lack_in_text.into())?;
    put_shown(alloc, text, ToolFault::OutOfMemory.into())?;
    put_shown(alloc, text, SinkFault.into())?;
    put_shown(alloc, text, TextFault::EmptyPath.into())?;
    put_faults(alloc, text)
}

/// Appends an error as Rust shows it, and its text.
fn put_shown(alloc: Global, text: &mut Vec<u8>, error: Error) -> Result<(), AllocError> {
    text.extend_from_slice(format!(in alloc; "{error:?}: {error}\n")?.as_bytes())
}

/// Appends the texts of two faults of tools.
fn put_faults(alloc: Global, text: &mut Vec<u8>) -> Result<(), AllocError> {
    let line = format!(in alloc; "{}; {}\n", ToolFault::Write, ToolFault::OutOfMemory)?;
    text.extend_from_slice(line.as_bytes())
}
