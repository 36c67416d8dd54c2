//! Parts of a graph by files and edges that know it, as text.

use nj_graph::{Edge, EdgeList, EdgeNo, Edges, File, Files, Graph, GraphFault, NeededCommands};
use std::alloc::{AllocError, Global};

/// Appends the part of a graph for a row of the given kind: `by-kind`, the files of each edge by
/// kind, a line each; `files`, each file with the rule of the edge that makes it and the rules of
/// its users, and of those that name it as a validation; `edge`, the rule of the edge with a given
/// number; and for the files that the words denote `commands`, the edges with commands that they
/// need, `affects`, those that a change of them affects, and `needs`, those that they need.
pub(crate) fn put_of_handles(
    alloc: Global,
    text: &mut Vec<u8>,
    graph: &Graph,
    kind: &str,
    words: &[u8],
) -> Result<(), AllocError> {
    match kind {
        "by-kind" => put_all_by_kind(text, graph),
        "files" => put_all_files(text, graph),
        "edge" => put_numbered(text, graph, words),
        "commands" | "affects" | "needs" => put_of_targets(alloc, text, graph, kind, words),
        _ => text.extend_from_slice(b"no row is of this kind\n"),
    }
}

fn put_all_by_kind(text: &mut Vec<u8>, graph: &Graph) -> Result<(), AllocError> {
    for edge in graph.edges() {
        text.extend_from_slice(edge.rule_name())?;
        put_files(text, b":", edge.explicit_outputs())?;
        put_files(text, b" |", edge.implicit_outputs())?;
        put_files(text, b" <", edge.explicit_inputs())?;
        put_files(text, b" |", edge.implicit_inputs())?;
        put_files(text, b" ||", edge.order_only_inputs())?;
        put_files(text, b" |@", edge.validations())?;
        text.push(b'\n')?;
    }
    Ok(())
}

/// Appends a sign and the paths of files.
fn put_files(text: &mut Vec<u8>, sign: &[u8], files: Files<'_>) -> Result<(), AllocError> {
    text.extend_from_slice(sign)?;
    for file in files {
        text.push(b' ')?;
        text.extend_from_slice(file.path())?;
    }
    Ok(())
}

fn put_all_files(text: &mut Vec<u8>, graph: &Graph) -> Result<(), AllocError> {
    for file in graph.files() {
        put_file(text, file)?;
    }
    put_files(text, b"roots:", graph.root_files())?;
    put_files(text, b"\ndefaults:", graph.default_files())?;
    text.push(b'\n')?;
    Ok(())
}

fn put_file(text: &mut Vec<u8>, file: File<'_>) -> Result<(), AllocError> {
    text.extend_from_slice(file.path())?;
    text.extend_from_slice(b": ")?;
    text.extend_from_slice(match file.maker() {
        Some(edge) => edge.rule_name(),
        None => b"-",
    })?;
    put_rules(text, b" <", file.users())?;
    put_rules(text, b" |@", file.validation_users())?;
    text.push(b'\n')?;
    Ok(())
}

/// Appends a sign and the rules of edges.
fn put_rules(text: &mut Vec<u8>, sign: &[u8], edges: Edges<'_>) -> Result<(), AllocError> {
    text.extend_from_slice(sign)?;
    for edge in edges {
        text.push(b' ')?;
        text.extend_from_slice(edge.rule_name())?;
    }
    Ok(())
}

fn put_numbered(text: &mut Vec<u8>, graph: &Graph, word: &[u8]) -> Result<(), AllocError> {
    let number = str::from_utf8(word)
        .unwrap_or("")
        .parse::<usize>()
        .unwrap_or(0);
    text.extend_from_slice(match graph.edge(EdgeNo(number)) {
        Some(edge) => edge.rule_name(),
        None => b"none",
    })?;
    text.push(b'\n')?;
    Ok(())
}

fn put_of_targets(
    alloc: Global,
    text: &mut Vec<u8>,
    graph: &Graph,
    kind: &str,
    words: &[u8],
) -> Result<(), AllocError> {
    let mut targets = Vec::new(alloc);
    for word in str::from_utf8(words).unwrap_or("").split_whitespace() {
        targets.push(word)?;
    }
    match graph.targets(alloc, &targets) {
        Ok(files) => match kind {
            "commands" => put_commands(text, files.needed_commands(alloc)?),
            "affects" => put_list(text, &files.affected_edges(alloc)?),
            _ => put_list(text, &files.needed_edges(alloc)?),
        },
        Err(fault) => put_fault(alloc, text, &fault),
    }
}

fn put_commands(text: &mut Vec<u8>, commands: NeededCommands<'_>) -> Result<(), AllocError> {
    for edge in commands {
        put_outputs(text, edge)?;
    }
    Ok(())
}

fn put_list(text: &mut Vec<u8>, list: &EdgeList<'_>) -> Result<(), AllocError> {
    for edge in list.edges() {
        put_outputs(text, edge)?;
    }
    Ok(())
}

/// Appends the rule of an edge with its outputs, as a line.
fn put_outputs(text: &mut Vec<u8>, edge: Edge<'_>) -> Result<(), AllocError> {
    text.extend_from_slice(edge.rule_name())?;
    put_files(text, b":", edge.outputs())?;
    text.push(b'\n')?;
    Ok(())
}

fn put_fault(alloc: Global, text: &mut Vec<u8>, fault: &GraphFault) -> Result<(), AllocError> {
    text.extend_from_slice(&fault.bare_line(alloc)?)?;
    text.push(b'\n')?;
    Ok(())
}
