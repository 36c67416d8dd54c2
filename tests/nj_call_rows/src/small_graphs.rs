//! Graphs of edges from short texts.
//!
//! An edge is a line, as in a manifest: the file that it makes with a colon, then `phony` if it has
//! no command, its inputs, order-only ones after `||`, and its validations after `|@`.

use crate::printer::{put_answer, put_shown, steps_of};
use crate::small_walks::put_of_walk;
use nj_edges::{EdgeGraph, EdgeNo, Edges, FileNo, Finished, HashKeys, KindEnds};
use std::alloc::{AllocError, Global};
use std::fmt::Write;

/// Appends an outcome for the graph of the given edges.
pub fn put_of_edges(
    alloc: Global,
    text: &mut Vec<u8>,
    edges: &[u8],
    kind: &str,
    asked: &str,
) -> Result<(), AllocError> {
    match finished(alloc, str::from_utf8(edges).unwrap_or(""))? {
        Finished::Graph(graph) if kind == "numbered" => put_numbered(alloc, text, &graph),
        Finished::Graph(graph) => put_of_walk(alloc, text, &graph, kind, asked),
        Finished::Cycle(_) => text.extend_from_slice(b"a cycle\n"),
    }
}

/// Appends how many edges the walk to the last edge of a chain returns, and how many turns it
/// takes. Each edge has the edge before it as an input, as often as the row says.
pub fn put_chain(alloc: Global, text: &mut Vec<u8>, asked: &str) -> Result<(), AllocError> {
    let (edges, times) = asked.split_once(' ').unwrap_or((asked, ""));
    let (edges, times) = (edges.parse().unwrap_or(0), times.parse().unwrap_or(0));
    let chain = chain_of(alloc, edges, times)?;
    let last = format!(in alloc; "{edges}")?;
    put_of_edges(alloc, text, chain.as_bytes(), "count", &last)
}

/// A chain of `edges` edges, which are numbered from 1, each with the edge before it as an input
/// `times` times.
fn chain_of(alloc: Global, edges: u64, times: u64) -> Result<String, AllocError> {
    let mut text = String::from_str(alloc, "1:")?;
    for number in 1..edges {
        write!(text, "\n{}:", number.saturating_add(1))?;
        put_inputs(&mut text, number, times)?;
    }
    Ok(text)
}

fn put_inputs(text: &mut String, number: u64, times: u64) -> Result<(), AllocError> {
    for _ in 0..times {
        write!(text, " {number}")?;
    }
    Ok(())
}

/// How the reading of the given edges ends.
fn finished(alloc: Global, text: &str) -> Result<Finished, AllocError> {
    let mut edges = Edges::new(alloc, HashKeys::default());
    add_edges(&mut edges, text)?;
    edges.finish(alloc)
}

fn add_edges(edges: &mut Edges, text: &str) -> Result<(), AllocError> {
    for edge in text.lines() {
        add_edge(edges, edge)?;
    }
    Ok(())
}

fn add_edge(edges: &mut Edges, edge: &str) -> Result<(), AllocError> {
    let mut ordinary = usize::MAX;
    let mut is_phony = false;
    let mut are_validations = false;
    for word in edge.split(' ') {
        match word {
            "phony" => is_phony = true,
            "||" => ordinary = edges.open_inputs(),
            "|@" => are_validations = true,
            _ => add_file(edges, word, are_validations)?,
        }
    }
    end_edge(edges, ordinary, is_phony)
}

fn add_file(edges: &mut Edges, word: &str, is_validation: bool) -> Result<(), AllocError> {
    let path = word.as_bytes();
    match path {
        [output @ .., b':'] => {
            edges.add_output(output)?;
            Ok(())
        }
        _ if is_validation => edges.add_validation(path),
        _ => edges.add_input(path),
    }
}

/// Ends an edge whose first `ordinary` inputs are not order-only.
fn end_edge(edges: &mut Edges, ordinary: usize, is_phony: bool) -> Result<(), AllocError> {
    let inputs = ordinary.min(edges.open_inputs());
    let kinds = KindEnds {
        explicit_outputs: edges.open_outputs(),
        explicit_inputs: inputs,
        implicit_inputs: inputs,
    };
    edges.end_edge(kinds, is_phony)
}

/// The files at the given paths, which spaces separate; a path that no edge names is skipped.
pub fn files_at(alloc: Global, graph: &EdgeGraph, paths: &str) -> Result<Vec<FileNo>, AllocError> {
    let mut files = Vec::new(alloc);
    for path in paths.split(' ') {
        if let Some(file) = graph.file_named(path.as_bytes()) {
            files.push(file)?;
        }
    }
    Ok(files)
}

/// Appends the paths of all files, how many inputs each edge has, after how many of them are
/// explicit, and how many edges and files there are, each as a line.
fn put_numbered(alloc: Global, text: &mut Vec<u8>, graph: &EdgeGraph) -> Result<(), AllocError> {
    put_paths(text, graph)?;
    put_counts(alloc, text, graph)?;
    let (edges, files) = (graph.edge_count(), graph.file_count());
    text.extend_from_slice(format!(in alloc; "{edges} edges, {files} files\n")?.as_bytes())
}

fn put_paths(text: &mut Vec<u8>, graph: &EdgeGraph) -> Result<(), AllocError> {
    text.extend_from_slice(b"files:")?;
    for number in 0..graph.file_count() {
        text.push(b' ')?;
        text.extend_from_slice(graph.path(FileNo(number)))?;
    }
    text.extend_from_slice(b"\n")
}

fn put_counts(alloc: Global, text: &mut Vec<u8>, graph: &EdgeGraph) -> Result<(), AllocError> {
    text.extend_from_slice(b"inputs:")?;
    for number in 0..graph.edge_count() {
        let edge = EdgeNo(number);
        let (explicit, all) = (graph.explicit_inputs(edge), graph.inputs(edge).len());
        text.extend_from_slice(format!(in alloc; " {explicit}/{all}")?.as_bytes())?;
    }
    text.extend_from_slice(b"\n")
}

/// Appends the steps in which the files of edges are collected: each call with its result.
pub fn put_collected(alloc: Global, text: &mut Vec<u8>, wanted: &[u8]) -> Result<(), AllocError> {
    let mut edges = Edges::new(alloc, HashKeys::new(7));
    put_steps(alloc, text, &mut edges, steps_of(wanted))
}

fn put_steps(
    alloc: Global,
    text: &mut Vec<u8>,
    edges: &mut Edges,
    steps: &str,
) -> Result<(), AllocError> {
    for step in steps.lines() {
        let (asked, _outcome) = step.split_once(": ").unwrap_or((step, ""));
        text.extend_from_slice(asked.as_bytes())?;
        text.extend_from_slice(b": ")?;
        put_outcome(alloc, text, edges, asked)?;
        text.push(b'\n')?;
    }
    Ok(())
}

fn put_outcome(
    alloc: Global,
    text: &mut Vec<u8>,
    edges: &mut Edges,
    asked: &str,
) -> Result<(), AllocError> {
    let (call, path) = asked.split_once(' ').unwrap_or((asked, ""));
    let path = path.as_bytes();
    match call {
        "output" => put_answer(text, edges.add_output(path)?),
        "input" => {
            edges.add_input_of_another(path)?;
            text.extend_from_slice(b"done")
        }
        "end" => {
            end_edge(edges, 1, false)?;
            text.extend_from_slice(b"done")
        }
        "has-input" => put_answer(text, edges.open_input(path).is_some()),
        "has" => put_answer(text, edges.file_named(path).is_some()),
        "outputs" => put_shown(alloc, text, &edges.open_output_files().len()),
        "inputs" => put_shown(alloc, text, &edges.open_input_files().len()),
        "edges" => put_shown(alloc, text, &edges.edge_count()),
        "files" => put_shown(alloc, text, &edges.files().count()),
        _ => text.extend_from_slice(b"no call"),
    }
}
