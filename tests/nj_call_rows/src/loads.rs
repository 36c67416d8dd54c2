//! The loads of a row's files: their graph, or their first fault.

use crate::chains::{put_between, put_needed};
use crate::changes::put_affected;
use crate::graphs::put_of_graph;
use crate::printer::put_shown;
use nj_graph::{GraphFault, Loaded, join_dyndeps, load};
use nj_rows::{Given, first_of};
use nj_scope::MemoryFiles;
use std::alloc::{AllocError, Global};

/// Appends an outcome for the files with the main file `main`: `load`, the line of their first
/// fault, or `accepted`; `cause`, the cause of that fault; `kept`, the files that are kept;
/// `affected` and `affected-joined`, the outputs that a change of the files at the paths `words`
/// affects; `variable-joined`, the values of the variable `words` for their edges; `needed`, the
/// outputs of the edges that the files need; `between`, and with validations
/// `between-with-validations`, by which chain the first of them needs the second; any other kind, a
/// part of their graph.
pub(crate) fn put_of_files(
    alloc: Global,
    text: &mut Vec<u8>,
    given: &Given,
    main: &str,
    kind: &str,
    words: &[u8],
) -> Result<(), AllocError> {
    let mut files = given.source(alloc)?;
    match loaded_for(alloc, &mut files, main, kind) {
        Ok(loaded) => put_part_of(alloc, text, &loaded, kind, words),
        Err(fault) => put_fault(alloc, text, &fault, kind),
    }
}

/// The load of the files, for a `-joined` kind with the discoveries of their dyndep files.
fn loaded_for(
    alloc: Global,
    files: &mut MemoryFiles,
    main: &str,
    kind: &str,
) -> Result<Loaded, GraphFault> {
    let loaded = load(alloc, files, main)?;
    match kind {
        "affected-joined" | "variable-joined" => join_dyndeps(alloc, loaded, files),
        _ => Ok(loaded),
    }
}

/// Appends the part of the load of files that a kind names.
fn put_part_of(
    alloc: Global,
    text: &mut Vec<u8>,
    loaded: &Loaded,
    kind: &str,
    words: &[u8],
) -> Result<(), AllocError> {
    match kind {
        "load" | "cause" => text.extend_from_slice(b"accepted\n"),
        "kept" => put_kept(text, loaded),
        "affected" | "affected-joined" => put_affected(alloc, text, loaded.graph(), words),
        "variable-joined" => put_of_graph(alloc, text, loaded.graph(), "variable", words),
        "needed" => put_needed(alloc, text, loaded.graph(), words),
        "between" => put_between(alloc, text, loaded.graph(), words, false),
        "between-with-validations" => put_between(alloc, text, loaded.graph(), words, true),
        _ => put_of_graph(alloc, text, loaded.graph(), kind, words),
    }
}

/// Appends a fault: its line, for `cause` its cause as Rust shows it, and for changes how it is
/// shown.
fn put_fault(
    alloc: Global,
    text: &mut Vec<u8>,
    fault: &GraphFault,
    kind: &str,
) -> Result<(), AllocError> {
    match kind {
        "cause" => text.extend_from_slice(format!(in alloc; "{:?}", fault.cause)?.as_bytes())?,
        "affected" | "affected-joined" => put_shown(alloc, text, fault)?,
        _ => text.extend_from_slice(&fault.line(alloc)?)?,
    }
    text.extend_from_slice(b"\n")
}

/// Appends the files that are kept, a line each.
fn put_kept(text: &mut Vec<u8>, loaded: &Loaded) -> Result<(), AllocError> {
    for index in 0..loaded.files().count() {
        text.extend_from_slice(loaded.files().path(index).unwrap_or(b"-".as_slice()))?;
        text.push(b'\n')?;
    }
    Ok(())
}

/// Appends whether the first faults of two main files are equal.
pub(crate) fn put_comparison(
    alloc: Global,
    text: &mut Vec<u8>,
    given: &Given,
    mains: &str,
) -> Result<(), AllocError> {
    let (first, second) = first_of(mains);
    let mut files = given.source(alloc)?;
    let first = load(alloc, &mut files, first).err();
    let second = load(alloc, &mut files, second).err();
    let answer: &[u8] = if first == second {
        b"equal\n"
    } else {
        b"different\n"
    };
    text.extend_from_slice(answer)
}
