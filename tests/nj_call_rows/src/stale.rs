//! The stale edges of the files of a row.

use crate::discovered::{Found, found_in, put_fault, put_output, unknown_edges};
use nj_build_log::{BuildLog, LogVersion};
use nj_graph::{EdgeGraph, EdgeNo, Graph, GraphFault};
use nj_rows::{Given, Times};
use nj_stale::{Reason, makers_first, reasons_of};
use nj_state::{facts_of, times_of};
use std::alloc::{AllocError, Global};

/// Appends the edges of `build.ninja` that are stale and not phony, each with its reason in the words
/// of Ninja; or the line of a fault.
pub(crate) fn put_stale(
    alloc: Global,
    text: &mut Vec<u8>,
    given: &Given,
    log: &str,
) -> Result<(), AllocError> {
    match stale_in(alloc, given, log) {
        Ok(lines) => text.extend_from_slice(&lines),
        Err(fault) => put_fault(alloc, text, &fault),
    }
}

/// The lines of the stale edges.
fn stale_in(alloc: Global, given: &Given, log: &str) -> Result<Vec<u8>, GraphFault> {
    let Found { graph, discoveries } = found_in(alloc, given, log)?;
    let unknown = unknown_edges(alloc, &discoveries)?;
    let graph = graph.join_discovered(alloc, &discoveries)?;
    let log = build_log(alloc, given)?;
    let version = log.version().unwrap_or(LogVersion::Seven);
    let facts = facts_of(alloc, &graph, &unknown, version)?;
    let times = known_times(alloc, &graph, given)?;
    let order = makers_first(alloc, &graph)?;
    let reasons = reasons_of(alloc, &graph, &facts, &times, &log, &order)?;
    let mut text = Vec::new(alloc);
    for number in 0..graph.edge_count() {
        let edge = EdgeNo(number);
        if let Some(reason) = reasons[number] {
            if !graph.is_phony(edge) {
                put_output(&mut text, &graph, edge)?;
                text.extend_from_slice(b": ")?;
                put_reason(&mut text, &graph, edge, reason)?;
                text.push(b'\n')?;
            }
        }
    }
    Ok(text)
}

/// The build log of the file `build-log`; without the file, a log without lines.
fn build_log(alloc: Global, given: &Given) -> Result<BuildLog, AllocError> {
    match BuildLog::read(alloc, given.bytes("build-log")) {
        Ok(log) => Ok(log),
        Err(_) => Err(AllocError),
    }
}

/// The time of each file, 0 if it is missing.
fn known_times(alloc: Global, graph: &Graph, given: &Given) -> Result<Vec<u64>, AllocError> {
    match times_of(alloc, graph, &Times::of(given)) {
        Ok(times) => Ok(times),
        Err(_) => Err(AllocError),
    }
}

/// Appends a reason.
fn put_reason(
    text: &mut Vec<u8>,
    graph: &EdgeGraph,
    edge: EdgeNo,
    reason: Reason,
) -> Result<(), AllocError> {
    let outputs = graph.outputs(edge);
    let (before, file, after) = match reason {
        Reason::UnknownInputs => return text.extend_from_slice(b"depfile is missing"),
        Reason::StaleInput(place) => ("", graph.inputs(edge)[place], " is dirty"),
        Reason::MissingOutput(place) => ("output ", outputs[place], " doesn't exist"),
        Reason::OlderOutput(place) => ("output ", outputs[place], " older"),
        Reason::OtherCommand(place) => ("command line changed for ", outputs[place], ""),
        Reason::EarlierBuild(place) => ("recorded mtime of ", outputs[place], " older"),
        Reason::NotLogged(place) => ("command line not found in log for ", outputs[place], ""),
    };
    text.extend_from_slice(before.as_bytes())?;
    text.extend_from_slice(graph.path(file))?;
    text.extend_from_slice(after.as_bytes())
}
