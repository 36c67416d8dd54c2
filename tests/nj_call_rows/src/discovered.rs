//! What builds discovered for the edges of the files of a row.

use crate::graphs::put_edges;
use nj_deps::{DepsLog, DepsLogFault};
use nj_graph::{DepfileError, Discoveries, EdgeNo, Graph, GraphFault, Unknown, Verdict, load};
use nj_rows::{Given, Times, log_of};
use std::alloc::{AllocError, Global};

/// A graph, and what builds discovered for its edges.
#[derive(Drop)]
pub(crate) struct Found {
    pub(crate) graph: Graph,
    pub(crate) discoveries: Discoveries,
}

/// Appends what builds discovered for each edge of `build.ninja`, by the log in the given file and
/// by depfiles; or the line of a fault.
pub(crate) fn put_discovered(
    alloc: Global,
    text: &mut Vec<u8>,
    given: &Given,
    log: &str,
) -> Result<(), AllocError> {
    match found_in(alloc, given, log) {
        Ok(found) => put_found(text, &found),
        Err(fault) => put_fault(alloc, text, &fault),
    }
}

/// Appends the edges with what builds discovered for them, or the line of a fault.
pub(crate) fn put_joined_discoveries(
    alloc: Global,
    text: &mut Vec<u8>,
    given: &Given,
    log: &str,
) -> Result<(), AllocError> {
    match joined(alloc, given, log) {
        Ok(graph) => put_edges(alloc, text, &graph),
        Err(fault) => put_fault(alloc, text, &fault),
    }
}

/// Appends the first outputs of the edges that a change of files makes dirty, with what builds
/// discovered: the words are the file of the log and the paths of the files.
pub(crate) fn put_dirtied(
    alloc: Global,
    text: &mut Vec<u8>,
    given: &Given,
    words: &str,
) -> Result<(), AllocError> {
    let (log, paths) = words.split_once(' ').unwrap_or((words, ""));
    match dirtied(alloc, given, log, paths) {
        Ok(outputs) => text.extend_from_slice(&outputs),
        Err(fault) => put_fault(alloc, text, &fault),
    }
}

/// What builds discovered for the edges of `build.ninja`.
pub(crate) fn found_in(alloc: Global, given: &Given, log: &str) -> Result<Found, GraphFault> {
    let mut files = given.source(alloc)?;
    let graph = load(alloc, &mut files, "build.ninja")?.into_graph();
    let log = log_at(alloc, given, log)?;
    let times = Times::of(given);
    let discoveries = graph.discover(alloc, &log, &mut files, &times)?;
    Ok(Found { graph, discoveries })
}

/// The log in the given file; without the file, a log without records.
fn log_at(alloc: Global, given: &Given, name: &str) -> Result<DepsLog, AllocError> {
    let parts = str::from_utf8(given.bytes(name)).unwrap_or("");
    let parts = if parts.is_empty() { "open 4" } else { parts };
    match DepsLog::read(alloc, &log_of(alloc, parts)?) {
        Ok(log) => Ok(log),
        Err(DepsLogFault::OutOfMemory) => Err(AllocError),
        Err(_) => Err(AllocError),
    }
}

/// The graph with what builds discovered.
fn joined(alloc: Global, given: &Given, log: &str) -> Result<Graph, GraphFault> {
    let Found { graph, discoveries } = found_in(alloc, given, log)?;
    graph.join_discovered(alloc, &discoveries)
}

/// The first outputs of the edges that a change of the files at the given paths makes dirty.
fn dirtied(alloc: Global, given: &Given, log: &str, paths: &str) -> Result<Vec<u8>, GraphFault> {
    let Found { graph, discoveries } = found_in(alloc, given, log)?;
    let unknown = unknown_edges(alloc, &discoveries)?;
    let graph = graph.join_discovered(alloc, &discoveries)?;
    let mut changed = Vec::new(alloc);
    for path in paths.split(' ') {
        if let Some(file) = graph.file_named(path.as_bytes()) {
            changed.push(file)?;
        }
    }
    let mut text = Vec::new(alloc);
    for edge in graph.dirtied_by(alloc, &changed, &unknown)?.iter() {
        put_output(&mut text, &graph, *edge)?;
        text.push(b'\n')?;
    }
    Ok(text)
}

/// The edges whose discovered inputs are not known.
pub(crate) fn unknown_edges(
    alloc: Global,
    discoveries: &Discoveries,
) -> Result<Vec<EdgeNo>, AllocError> {
    let mut edges = Vec::new(alloc);
    for edge in 0..discoveries.edge_count() {
        if !matches!(discoveries.verdict(edge), Verdict::Known) {
            edges.push(EdgeNo(edge))?;
        }
    }
    Ok(edges)
}

/// Appends what was discovered for each edge.
fn put_found(text: &mut Vec<u8>, found: &Found) -> Result<(), AllocError> {
    for edge in 0..found.discoveries.edge_count() {
        put_output(text, &found.graph, EdgeNo(edge))?;
        text.extend_from_slice(b": ")?;
        put_verdict(text, found.discoveries.verdict(edge))?;
        text.push(b'\n')?;
        for input in found.discoveries.inputs(edge) {
            text.extend_from_slice(b"  ")?;
            text.extend_from_slice(found.discoveries.path(*input as usize))?;
            text.push(b'\n')?;
        }
    }
    Ok(())
}

/// Appends the first output of an edge.
pub(crate) fn put_output(
    text: &mut Vec<u8>,
    graph: &Graph,
    edge: EdgeNo,
) -> Result<(), AllocError> {
    match graph.outputs(edge).first() {
        Some(output) => text.extend_from_slice(graph.path(*output)),
        None => Ok(()),
    }
}

/// Appends whether the inputs are known.
fn put_verdict(text: &mut Vec<u8>, verdict: &Verdict) -> Result<(), AllocError> {
    match verdict {
        Verdict::Known => text.extend_from_slice(b"known"),
        Verdict::Unknown(why) => text.extend_from_slice(words_of(*why)),
        Verdict::Faulty(fault) => put_depfile_fault(text, fault),
    }
}

/// Appends the fault of a depfile.
fn put_depfile_fault(text: &mut Vec<u8>, fault: &DepfileError) -> Result<(), AllocError> {
    text.extend_from_slice(b"fault, ")?;
    fault.append_text(text)
}

/// Why inputs are not known.
fn words_of(why: Unknown) -> &'static [u8] {
    match why {
        Unknown::NoRecord => b"no record",
        Unknown::NewerOutput => b"newer output",
        Unknown::NoTime => b"no time",
        Unknown::NoDepfile => b"no depfile",
        Unknown::EmptyDepfile => b"empty depfile",
        Unknown::OtherTarget => b"other target",
    }
}

/// Appends the line of a fault.
pub(crate) fn put_fault(
    alloc: Global,
    text: &mut Vec<u8>,
    fault: &GraphFault,
) -> Result<(), AllocError> {
    text.extend_from_slice(&fault.line(alloc)?)?;
    text.extend_from_slice(b"\n")
}
