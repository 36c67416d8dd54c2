//! The edges that files need, and by which chain of inputs.

use crate::changes::{files_at, put_outputs};
use crate::printer::put_shown;
use nj_graph::{ChainKinds, Error, Graph, Kind, Step};
use std::alloc::{AllocError, Global};

/// Appends the outputs of the edges that the files at the given paths need, in the order in which
/// they are given.
pub(crate) fn put_needed(
    alloc: Global,
    text: &mut Vec<u8>,
    graph: &Graph,
    paths: &[u8],
) -> Result<(), AllocError> {
    let paths = str::from_utf8(paths).unwrap_or("not UTF-8");
    if let Err(error) = put_all_needed(alloc, text, graph, paths) {
        put_shown(alloc, text, &error)?;
    }
    text.extend_from_slice(b"\n")
}

/// Appends the outputs of the edges that the given files need.
fn put_all_needed(
    alloc: Global,
    text: &mut Vec<u8>,
    graph: &Graph,
    paths: &str,
) -> Result<(), Error> {
    let files = files_at(alloc, graph, paths)?;
    let edges = graph.needed_by(alloc, &files)?;
    for edge in &edges {
        put_outputs(text, graph, *edge)?;
    }
    Ok(())
}

/// Appends the steps of the chain by which the first of two files needs the second: for each the
/// number of its edge, the index of its input, and its file; `-` without a chain.
pub(crate) fn put_between(
    alloc: Global,
    text: &mut Vec<u8>,
    graph: &Graph,
    paths: &[u8],
    with_validations: bool,
) -> Result<(), AllocError> {
    let paths = str::from_utf8(paths).unwrap_or("not UTF-8");
    if let Err(error) = put_steps(alloc, text, graph, paths, with_validations) {
        put_shown(alloc, text, &error)?;
    }
    text.extend_from_slice(b"\n")
}

/// Appends the steps of the chain.
fn put_steps(
    alloc: Global,
    text: &mut Vec<u8>,
    graph: &Graph,
    paths: &str,
    with_validations: bool,
) -> Result<(), Error> {
    let files = files_at(alloc, graph, paths)?;
    let [from, to] = files.as_slice() else {
        return Ok(text.extend_from_slice(b"not two files")?);
    };
    let kinds = ChainKinds {
        order_only: true,
        validations: with_validations,
    };
    match graph.path_between(alloc, *from, *to, kinds)? {
        Some(steps) => put_all_steps(alloc, text, graph, &steps)?,
        None => text.push(b'-')?,
    }
    Ok(())
}

/// Appends steps.
fn put_all_steps(
    alloc: Global,
    text: &mut Vec<u8>,
    graph: &Graph,
    steps: &[Step],
) -> Result<(), AllocError> {
    for step in steps {
        let sign = match step.kind {
            Some(Kind::Explicit) => "",
            Some(Kind::Implicit) => "|",
            Some(Kind::OrderOnly) => "||",
            None => "|@",
        };
        let at = format!(in alloc; " {}.{} {sign}", step.edge.0, step.index)?;
        text.extend_from_slice(at.as_bytes())?;
        text.extend_from_slice(graph.path(step.file))?;
    }
    Ok(())
}
