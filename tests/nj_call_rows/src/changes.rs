//! The edges that a change of files affects.

use crate::printer::put_shown;
use nj_graph::{EdgeNo, Error, FileNo, Graph, clean_path};
use std::alloc::{AllocError, Global};

/// Appends the outputs of the edges that a change of the files at the given paths affects, or the
/// text of the error.
pub(crate) fn put_affected(
    alloc: Global,
    text: &mut Vec<u8>,
    graph: &Graph,
    paths: &[u8],
) -> Result<(), AllocError> {
    let paths = str::from_utf8(paths).unwrap_or("not UTF-8");
    if let Err(error) = put_all_affected(alloc, text, graph, paths) {
        put_shown(alloc, text, &error)?;
        text.push(b'\n')?;
    }
    Ok(())
}

/// Appends the outputs of the edges that a change of the files at the given paths affects.
fn put_all_affected(
    alloc: Global,
    text: &mut Vec<u8>,
    graph: &Graph,
    paths: &str,
) -> Result<(), Error> {
    let files = files_at(alloc, graph, paths)?;
    let edges = graph.affected_by(alloc, &files)?;
    for edge in &edges {
        put_outputs(text, graph, *edge)?;
    }
    text.push(b'\n')?;
    Ok(())
}

/// The files at the given paths, once cleaned. A path that no edge names is passed over.
pub(crate) fn files_at(alloc: Global, graph: &Graph, paths: &str) -> Result<Vec<FileNo>, Error> {
    let mut files = Vec::new(alloc);
    for path in paths.split(' ') {
        let path = clean_path(alloc, path.as_bytes())?;
        if let Some(file) = graph.file_named(&path) {
            files.push(file)?;
        }
    }
    Ok(files)
}

/// Appends the outputs of an edge, each after a space.
pub(crate) fn put_outputs(
    text: &mut Vec<u8>,
    graph: &Graph,
    edge: EdgeNo,
) -> Result<(), AllocError> {
    for output in graph.outputs(edge) {
        text.push(b' ')?;
        text.extend_from_slice(graph.path(*output))?;
    }
    Ok(())
}
