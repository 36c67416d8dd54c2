//! The inputs that deps logs add to the edges of the files of a row, and the inputs that the edges
//! do not declare.

use crate::graphs::put_edges;
use crate::printer::put_shown;
use nj_deps::{DepsLog, DepsLogFault};
use nj_graph::{Graph, GraphFault, UndeclaredInput, join_dyndeps, load, undeclared_inputs};
use nj_rows::{Given, log_of};
use std::alloc::{AllocError, Global};

/// Appends the edges of `build.ninja`, to which its dyndep files and then the logs in the given
/// files are joined, one after the other; or the line of the first fault.
pub(crate) fn put_joined(
    alloc: Global,
    text: &mut Vec<u8>,
    given: &Given,
    names: &str,
) -> Result<(), AllocError> {
    match joined(alloc, given, names) {
        Ok(graph) => put_edges(alloc, text, &graph),
        Err(fault) => put_line(alloc, text, &fault),
    }
}

/// Appends the inputs that edges of `build.ninja` do not declare by the log in the given file; or
/// why the graph or the log is missing.
pub(crate) fn put_undeclared(
    alloc: Global,
    text: &mut Vec<u8>,
    given: &Given,
    name: &str,
) -> Result<(), AllocError> {
    let log = log_of(
        alloc,
        str::from_utf8(given.bytes(name)).unwrap_or("text not UTF-8"),
    )?;
    match DepsLog::read(alloc, &log) {
        Ok(log) => put_uses(alloc, text, given, &log),
        Err(fault) => {
            put_shown(alloc, text, &fault)?;
            text.extend_from_slice(b"\n")
        }
    }
}

/// Appends the inputs that edges of `build.ninja` do not declare by the given log.
fn put_uses(
    alloc: Global,
    text: &mut Vec<u8>,
    given: &Given,
    log: &DepsLog,
) -> Result<(), AllocError> {
    match with_dyndeps(alloc, given) {
        Ok(graph) => put_uses_in(alloc, text, &graph, log),
        Err(fault) => put_line(alloc, text, &fault),
    }
}

/// Appends a line for each input of a graph that its edge does not declare by the given log.
fn put_uses_in(
    alloc: Global,
    text: &mut Vec<u8>,
    graph: &Graph,
    log: &DepsLog,
) -> Result<(), AllocError> {
    let inputs = undeclared_inputs(alloc, graph, log)?;
    for input in inputs.iter() {
        put_use(text, graph, *input)?;
    }
    Ok(())
}

/// Appends an input, after the first output of its edge.
fn put_use(text: &mut Vec<u8>, graph: &Graph, input: UndeclaredInput) -> Result<(), AllocError> {
    if let Some(output) = graph.outputs(input.edge).first() {
        text.extend_from_slice(graph.path(*output))?;
    }
    text.extend_from_slice(b" uses ")?;
    text.extend_from_slice(graph.path(input.file))?;
    text.extend_from_slice(b"\n")
}

/// Appends the line of a fault.
fn put_line(alloc: Global, text: &mut Vec<u8>, fault: &GraphFault) -> Result<(), AllocError> {
    text.extend_from_slice(&fault.line(alloc)?)?;
    text.extend_from_slice(b"\n")
}

/// The graph with its dyndep files and the logs in the given files, one after the other. A log that
/// cannot be read is passed over.
fn joined(alloc: Global, given: &Given, names: &str) -> Result<Graph, GraphFault> {
    let mut graph = with_dyndeps(alloc, given)?;
    for name in names.split(' ') {
        let parts = str::from_utf8(given.bytes(name)).unwrap_or("text not UTF-8");
        match DepsLog::read(alloc, &log_of(alloc, parts)?) {
            Ok(log) => graph = graph.join_deps(alloc, &log)?,
            Err(DepsLogFault::OutOfMemory) => return Err(GraphFault::out_of_memory()),
            Err(_) => {}
        }
    }
    Ok(graph)
}

/// The graph of the files with their dyndep files.
fn with_dyndeps(alloc: Global, given: &Given) -> Result<Graph, GraphFault> {
    let mut files = given.source(alloc)?;
    let loaded = load(alloc, &mut files, "build.ninja")?;
    Ok(join_dyndeps(alloc, loaded, &mut files)?.into_graph())
}
