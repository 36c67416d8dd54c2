//! Parts of a graph, as text.

use crate::declared::{put_edge_rules, put_rule_lines, put_values, put_written};
use crate::handles::put_of_handles;
use crate::reached::put_reached;
use nj_graph::{Edge, EdgeNo, FileNo, Graph, GraphFault, Kind, PlaceRef, RuleNo, pick_target};
use std::alloc::{AllocError, Global};

/// Appends the part of a graph for a row of the given kind.
pub fn put_of_graph(
    alloc: Global,
    text: &mut Vec<u8>,
    graph: &Graph,
    kind: &str,
    word: &[u8],
) -> Result<(), AllocError> {
    match kind {
        "edges" => put_edges(alloc, text, graph),
        "places" => put_places(alloc, text, graph),
        "roots" => put_roots(text, graph),
        "pick" => put_picked(alloc, text, graph, word),
        "users" => put_users(alloc, text, graph, word),
        "variable" => put_variable(text, graph, word),
        "with-response-files" => put_with_response_files(alloc, text, graph),
        "rules" => put_rules(alloc, text, graph),
        "assigned" => put_assigned(text, graph),
        "declared" => put_declared(alloc, text, graph),
        "openings" => put_openings(alloc, text, graph),
        "blocks" => put_blocks(text, graph),
        "written" => put_written(alloc, text, graph.rules(), word),
        "rule-lines" => put_rule_lines(alloc, text, graph),
        "edge-rules" => put_edge_rules(alloc, text, graph),
        "values" => put_values(text, graph, word),
        "reached" => put_reached(alloc, text, graph, word),
        _ => put_of_handles(alloc, text, graph, kind, word),
    }
}

/// Appends the path of a file, after a space and a sign.
fn put_file(
    text: &mut Vec<u8>,
    sign: &[u8],
    graph: &Graph,
    file: FileNo,
) -> Result<(), AllocError> {
    text.push(b' ')?;
    text.extend_from_slice(sign)?;
    text.extend_from_slice(graph.path(file))
}

/// Appends the paths of files.
fn put_files(text: &mut Vec<u8>, graph: &Graph, files: &[FileNo]) -> Result<(), AllocError> {
    for file in files {
        put_file(text, b"", graph, *file)?;
    }
    Ok(())
}

/// Appends the inputs of an edge: `|` is before an implicit input, `||` before an order-only input.
fn put_inputs(text: &mut Vec<u8>, graph: &Graph, edge: EdgeNo) -> Result<(), AllocError> {
    for (index, file) in graph.inputs(edge).iter().enumerate() {
        let sign = match graph.input_kind(edge, index) {
            Kind::Explicit => b"".as_slice(),
            Kind::Implicit => b"|",
            Kind::OrderOnly => b"||",
        };
        put_file(text, sign, graph, *file)?;
    }
    Ok(())
}

/// Appends a line of an edge: its rule, how many of its outputs are explicit, its outputs, its
/// inputs and its validations.
fn put_edge(
    alloc: Global,
    text: &mut Vec<u8>,
    graph: &Graph,
    edge: EdgeNo,
) -> Result<(), AllocError> {
    text.extend_from_slice(graph.rule_name(edge))?;
    let explicit = format!(in alloc; " {}:", graph.explicit_outputs(edge))?;
    text.extend_from_slice(explicit.as_bytes())?;
    put_files(text, graph, graph.outputs(edge))?;
    text.extend_from_slice(b" <")?;
    put_inputs(text, graph, edge)?;
    text.extend_from_slice(b" @")?;
    put_files(text, graph, graph.validations(edge))?;
    text.extend_from_slice(b"\n")
}

/// Appends the edges, a line each.
pub fn put_edges(alloc: Global, text: &mut Vec<u8>, graph: &Graph) -> Result<(), AllocError> {
    for number in 0..graph.edge_count() {
        put_edge(alloc, text, graph, EdgeNo(number))?;
    }
    Ok(())
}

/// Appends a place and a line end; `-` without a place.
fn put_place(
    alloc: Global,
    text: &mut Vec<u8>,
    place: Option<PlaceRef<'_>>,
) -> Result<(), AllocError> {
    let Some(place) = place else {
        return text.extend_from_slice(b"-\n");
    };
    text.extend_from_slice(place.file)?;
    let at = format!(in alloc; ":{}:{}\n", place.spot.line, place.spot.column)?;
    text.extend_from_slice(at.as_bytes())
}

/// Appends the places of the edges, a line each.
fn put_places(alloc: Global, text: &mut Vec<u8>, graph: &Graph) -> Result<(), AllocError> {
    for number in 0..graph.edge_count() {
        put_place(alloc, text, Some(graph.edge_place(EdgeNo(number))))?;
    }
    Ok(())
}

/// Appends the roots and the defaults.
fn put_roots(text: &mut Vec<u8>, graph: &Graph) -> Result<(), AllocError> {
    text.extend_from_slice(b"roots:")?;
    put_files(text, graph, graph.roots())?;
    text.extend_from_slice(b"; defaults:")?;
    put_files(text, graph, graph.defaults())?;
    text.extend_from_slice(b"\n")
}

/// Appends the path of the target that an argument denotes, or the line of its fault.
fn put_picked(
    alloc: Global,
    text: &mut Vec<u8>,
    graph: &Graph,
    word: &[u8],
) -> Result<(), AllocError> {
    match pick_target(alloc, graph, word) {
        Ok(file) => put_line(text, graph.path(file)),
        Err(fault) => put_fault(alloc, text, fault),
    }
}

/// Appends the line of a fault.
fn put_fault(alloc: Global, text: &mut Vec<u8>, fault: GraphFault) -> Result<(), AllocError> {
    let line = fault.line(alloc)?;
    put_line(text, &line)
}

/// Appends a line.
fn put_line(text: &mut Vec<u8>, line: &[u8]) -> Result<(), AllocError> {
    text.extend_from_slice(line)?;
    text.extend_from_slice(b"\n")
}

/// Appends the numbers of edges.
fn put_numbers(alloc: Global, text: &mut Vec<u8>, edges: &[EdgeNo]) -> Result<(), AllocError> {
    for edge in edges {
        text.extend_from_slice(format!(in alloc; " {}", edge.0)?.as_bytes())?;
    }
    Ok(())
}

/// Appends the numbers of the edges that have a file as an input, and of those that name it as a
/// validation.
fn put_users(
    alloc: Global,
    text: &mut Vec<u8>,
    graph: &Graph,
    path: &[u8],
) -> Result<(), AllocError> {
    let Some(file) = graph.file_named(path) else {
        return text.extend_from_slice(b"no edge names it\n");
    };
    text.extend_from_slice(b"inputs of:")?;
    put_numbers(alloc, text, graph.users(file))?;
    text.extend_from_slice(b"; validations of:")?;
    put_numbers(alloc, text, graph.validation_users(file))?;
    text.extend_from_slice(b"\n")
}

/// Appends the value of a variable for each edge, a line each.
fn put_variable(text: &mut Vec<u8>, graph: &Graph, name: &[u8]) -> Result<(), AllocError> {
    for edge in graph.edges() {
        edge.append_variable(text, name)?;
        text.push(b'\n')?;
    }
    Ok(())
}

/// Appends the commands of the edges with the contents of their response files in place, a line
/// each.
fn put_with_response_files(
    alloc: Global,
    text: &mut Vec<u8>,
    graph: &Graph,
) -> Result<(), AllocError> {
    for number in 0..graph.edge_count() {
        let command = graph.command_with_rsp(alloc, EdgeNo(number))?;
        text.extend_from_slice(&command)?;
        text.push(b'\n')?;
    }
    Ok(())
}

/// Appends the rules that are listed, a line each; after ` = ` the description, if any.
fn put_rules(alloc: Global, text: &mut Vec<u8>, graph: &Graph) -> Result<(), AllocError> {
    for index in 0..graph.main_rule_count() {
        text.extend_from_slice(graph.main_rule(index))?;
        if graph.has_description(index) {
            text.extend_from_slice(b" = ")?;
            text.extend_from_slice(&graph.description_text(alloc, index)?)?;
        }
        text.push(b'\n')?;
    }
    Ok(())
}

/// Appends the pool and the dyndep file of each edge, a line each; `-` if it has none.
fn put_assigned(text: &mut Vec<u8>, graph: &Graph) -> Result<(), AllocError> {
    for edge in graph.edges() {
        text.extend_from_slice(edge.pool().unwrap_or(b"-".as_slice()))?;
        text.push(b' ')?;
        text.extend_from_slice(edge.dyndep().unwrap_or(b"-".as_slice()))?;
        text.push(b'\n')?;
    }
    Ok(())
}

/// Appends the rules with their places, a line each, and then the pools.
fn put_declared(alloc: Global, text: &mut Vec<u8>, graph: &Graph) -> Result<(), AllocError> {
    for (number, rule) in graph.rules().iter().enumerate() {
        text.extend_from_slice(rule.name())?;
        text.push(b' ')?;
        put_place(alloc, text, graph.rule_place(RuleNo(number)))?;
    }
    put_pools(alloc, text, graph)
}

/// Appends the pools with their depths and places, a line each.
fn put_pools(alloc: Global, text: &mut Vec<u8>, graph: &Graph) -> Result<(), AllocError> {
    for index in 0..graph.pool_count() {
        text.extend_from_slice(graph.pool_name(index).unwrap_or(b"-".as_slice()))?;
        let depth = graph.pool_depth(index).unwrap_or(0);
        text.extend_from_slice(format!(in alloc; " of {depth} ")?.as_bytes())?;
        put_place(alloc, text, graph.pool_place(index))?;
    }
    Ok(())
}

/// Appends the files that were opened, a line each: their paths, the numbers of their scopes, and
/// the places of the statements that name them.
fn put_openings(alloc: Global, text: &mut Vec<u8>, graph: &Graph) -> Result<(), AllocError> {
    for index in 0..graph.opening_count() {
        if let Some(opening) = graph.opening(index) {
            text.extend_from_slice(opening.path)?;
            let scope = opening.scope.0;
            text.extend_from_slice(format!(in alloc; " in {scope} ")?.as_bytes())?;
            put_place(alloc, text, opening.named_at)?;
        }
    }
    Ok(())
}

/// Appends the bindings of each edge's block, a line each.
fn put_blocks(text: &mut Vec<u8>, graph: &Graph) -> Result<(), AllocError> {
    for edge in graph.edges() {
        put_block(text, edge)?;
        text.push(b'\n')?;
    }
    Ok(())
}

/// Appends the names that the block of an edge binds, with their values; `;` ends each.
fn put_block(text: &mut Vec<u8>, edge: Edge<'_>) -> Result<(), AllocError> {
    for index in 0..edge.block_name_count() {
        let name = edge.block_name(index).unwrap_or(b"?".as_slice());
        text.extend_from_slice(name)?;
        text.push(b'=')?;
        text.extend_from_slice(edge.block_value(name).unwrap_or(b"?".as_slice()))?;
        text.push(b';')?;
    }
    Ok(())
}
