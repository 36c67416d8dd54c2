//! The full paths of a change, by a graph.

use nj_chosen::ChangedPaths;
use nj_graph::Graph;
use nj_names::{HashKeys, Names};
use nj_reached::changed_paths;
use std::alloc::{AllocError, Global};

/// Appends each table of the full paths of a change of the files at the given paths, which are
/// clean, and are full if no edge names them. The build directory is `/b`; the change touches the
/// edges that it affects.
pub(crate) fn put_reached(
    alloc: Global,
    text: &mut Vec<u8>,
    graph: &Graph,
    words: &[u8],
) -> Result<(), AllocError> {
    let mut changed = Names::new(alloc, HashKeys::default());
    let mut files = Vec::new(alloc);
    for path in words.split(|byte| *byte == b' ') {
        changed.add(&nj_changes::full_path(alloc, b"/b", path)?)?;
        if let Some(file) = graph.file_named(path) {
            files.push(file)?;
        }
    }
    let touched = graph.affected_by(alloc, &files)?;
    let paths = changed_paths(
        alloc,
        HashKeys::default(),
        graph,
        b"/b",
        Vec::new(alloc),
        changed,
        &files,
        &touched,
    )?;
    put_tables(text, &paths)
}

/// Appends a line for each table.
fn put_tables(text: &mut Vec<u8>, paths: &ChangedPaths) -> Result<(), AllocError> {
    put_table(text, b"outputs", &paths.outputs)?;
    put_table(text, b"made", &paths.made)?;
    put_table(text, b"affected", &paths.affected)?;
    put_table(text, b"needing", &paths.needing)?;
    put_table(text, b"changed", &paths.changed)?;
    put_table(text, b"noticed", &paths.noticed)
}

/// Appends the name of a table and the paths in it.
fn put_table(text: &mut Vec<u8>, name: &[u8], paths: &Names) -> Result<(), AllocError> {
    text.extend_from_slice(name)?;
    text.push(b':')?;
    for number in 0..paths.count() {
        text.push(b' ')?;
        text.extend_from_slice(paths.name(number))?;
    }
    text.push(b'\n')?;
    Ok(())
}
