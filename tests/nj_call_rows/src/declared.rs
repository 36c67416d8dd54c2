//! The declarations of the files of a run.

use crate::printer::{put_part, put_shown};
use nj_graph::{Graph, Rule, ScopeNo};
use nj_scope::LateValue;
use std::alloc::{AllocError, Global};

/// Appends the rules as they were written, a line each: the numbers of their scopes, their names
/// and lines.
pub(crate) fn put_rule_lines(
    alloc: Global,
    text: &mut Vec<u8>,
    graph: &Graph,
) -> Result<(), AllocError> {
    for rule in graph.rules() {
        text.extend_from_slice(format!(in alloc; "{} ", rule.scope().0)?.as_bytes())?;
        text.extend_from_slice(rule.name())?;
        put_lines(alloc, text, rule)?;
        text.push(b'\n')?;
    }
    Ok(())
}

/// Appends the lines of a rule, each after a space.
fn put_lines(alloc: Global, text: &mut Vec<u8>, rule: &Rule) -> Result<(), AllocError> {
    for index in 0..rule.line_count() {
        text.push(b' ')?;
        text.extend_from_slice(rule.line_key(index))?;
        text.push(b'=')?;
        text.extend_from_slice(&rule.line_value(index).written(alloc)?)?;
    }
    Ok(())
}

/// Appends the number of the rule of each edge, and that of the scope of the edge, a line each.
pub(crate) fn put_edge_rules(
    alloc: Global,
    text: &mut Vec<u8>,
    graph: &Graph,
) -> Result<(), AllocError> {
    for edge in graph.edges() {
        let (rule, scope) = (edge.rule_number().0, edge.scope().0);
        text.extend_from_slice(format!(in alloc; "{rule} in {scope}\n")?.as_bytes())?;
    }
    Ok(())
}

/// Appends the values that a name has in the scopes, in brackets; `-` where it has none.
pub(crate) fn put_values(text: &mut Vec<u8>, graph: &Graph, name: &[u8]) -> Result<(), AllocError> {
    for scope in 0..graph.scope_count() {
        text.push(b'[')?;
        text.extend_from_slice(
            graph
                .scope_value(ScopeNo(scope), name)
                .unwrap_or(b"-".as_slice()),
        )?;
        text.push(b']')?;
    }
    text.push(b'\n')?;
    Ok(())
}

/// Appends the values of a key as rules keep them, a line each: the rule, the number of its scope,
/// the parts of the value, and how it is written.
pub(crate) fn put_written(
    alloc: Global,
    text: &mut Vec<u8>,
    rules: &[Rule],
    key: &[u8],
) -> Result<(), AllocError> {
    for rule in rules {
        text.extend_from_slice(rule.name())?;
        text.extend_from_slice(b" in ")?;
        put_shown(alloc, text, &rule.scope().0)?;
        text.extend_from_slice(b": ")?;
        match rule.value(key) {
            Some(value) => put_late(alloc, text, value)?,
            None => text.extend_from_slice(b"none")?,
        }
        text.push(b'\n')?;
    }
    Ok(())
}

/// Appends the parts of a value, and how it is written.
fn put_late(alloc: Global, text: &mut Vec<u8>, value: &LateValue) -> Result<(), AllocError> {
    for index in 0..value.len() {
        put_part(text, value.part(index))?;
    }
    text.push(b' ')?;
    text.extend_from_slice(&value.written(alloc)?)
}
