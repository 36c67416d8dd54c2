//! The dyndep files that are present, joined to the graph of the files of a row.

use crate::graphs::put_edges;
use nj_graph::{Graph, GraphFault, join_dyndeps, join_present_dyndeps, load};
use nj_rows::{Given, Times};
use std::alloc::{AllocError, Global};

/// Appends the edges of `build.ninja`, to which the dyndep files with a time are joined, and the
/// edges that are still pending; or the line of a fault. With the word `all` the other files are
/// joined after them.
pub(crate) fn put_present(
    alloc: Global,
    text: &mut Vec<u8>,
    given: &Given,
    word: &str,
) -> Result<(), AllocError> {
    match joined(alloc, given, word == "all") {
        Ok(graph) => {
            put_edges(alloc, text, &graph)?;
            put_pending(text, &graph)
        }
        Err(fault) => {
            text.extend_from_slice(&fault.line(alloc)?)?;
            text.extend_from_slice(b"\n")
        }
    }
}

/// The graph of `build.ninja` with its dyndep files.
fn joined(alloc: Global, given: &Given, joins_all: bool) -> Result<Graph, GraphFault> {
    let mut files = given.source(alloc)?;
    let loaded = load(alloc, &mut files, "build.ninja")?;
    let times = Times::of(given);
    let loaded = join_present_dyndeps(alloc, loaded, &mut files, &times)?;
    if joins_all {
        return Ok(join_dyndeps(alloc, loaded, &mut files)?.into_graph());
    }
    Ok(loaded.into_graph())
}

/// Appends each edge that is pending, by its first output, and the dyndep file on which it is.
fn put_pending(text: &mut Vec<u8>, graph: &Graph) -> Result<(), AllocError> {
    for index in 0..graph.pending_count() {
        let edge = graph.edge_at(graph.pending_edge(index));
        text.extend_from_slice(b"pending: ")?;
        if let Some(output) = edge.outputs().first() {
            text.extend_from_slice(output.path())?;
        }
        text.push(b' ')?;
        text.extend_from_slice(edge.dyndep().unwrap_or(b"-".as_slice()))?;
        text.push(b'\n')?;
    }
    Ok(())
}
