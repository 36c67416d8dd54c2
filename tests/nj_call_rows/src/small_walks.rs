//! The results of walks over small graphs.
//!
//! The rest of a walk is written as its edges, each with the mark after it, and the mark where none
//! is left.

use crate::marks::put_mark_text;
use crate::printer::put_shown;
use crate::small_graphs::files_at;
use nj_edges::{EdgeGraph, FileNo};
use nj_needs::{Mark, MarkFault, Needs, grow_targets};
use std::alloc::{AllocError, Global};

/// Appends an outcome of a walk over a graph: `walk PATH..`, `count PATH..`, `grown PATH..`, `begin
/// MARK PATH..`, `resume MARK PATH..` or `resume-within TURNS MARK PATH..`.
pub fn put_of_walk(
    alloc: Global,
    text: &mut Vec<u8>,
    graph: &EdgeGraph,
    kind: &str,
    asked: &str,
) -> Result<(), AllocError> {
    let (word, paths) = asked.split_once(' ').unwrap_or((asked, ""));
    match kind {
        "walk" | "count" => put_walk(alloc, text, graph, asked, kind),
        "grown" => put_grown(alloc, text, graph, asked),
        "begin" => put_resumed(alloc, text, graph, word, paths, Left::Nothing),
        "resume" => put_resumed(alloc, text, graph, word, paths, Left::Edges(u64::MAX)),
        _ => {
            let (mark, paths) = paths.split_once(' ').unwrap_or((paths, ""));
            let most = Left::Edges(word.parse().unwrap_or(0));
            put_resumed(alloc, text, graph, mark, paths, most)
        }
    }
}

/// The outcomes of a walk that was resumed.
#[derive(Clone, Copy)]
enum Left {
    /// Its mark before any edge is returned.
    Nothing,
    /// The rest of it, if it takes at most the given number of turns in all.
    Edges(u64),
}

/// Appends the edges of the whole walk to the given files, or only how many they are, and how many
/// turns it takes.
fn put_walk(
    alloc: Global,
    text: &mut Vec<u8>,
    graph: &EdgeGraph,
    paths: &str,
    kind: &str,
) -> Result<(), AllocError> {
    let targets = files_at(alloc, graph, paths)?;
    let mut needs = Needs::new(alloc, graph, &targets)?;
    if kind == "walk" {
        put_left(alloc, text, &mut needs)?;
    } else {
        let edges = count_left(&mut needs);
        text.extend_from_slice(format!(in alloc; "{edges} edges, ")?.as_bytes())?;
    }
    text.extend_from_slice(format!(in alloc; "{} turns\n", needs.turns())?.as_bytes())
}

/// How many edges are left.
fn count_left(needs: &mut Needs<'_>) -> usize {
    let mut count: usize = 0;
    while let Some(_edge) = needs.next() {
        count = count.saturating_add(1);
    }
    count
}

/// Appends an outcome of the walk to the given files that is resumed at a mark, or the fault.
fn put_resumed(
    alloc: Global,
    text: &mut Vec<u8>,
    graph: &EdgeGraph,
    mark: &str,
    paths: &str,
    asked: Left,
) -> Result<(), AllocError> {
    let targets = files_at(alloc, graph, paths)?;
    match resumed(alloc, graph, &targets, mark) {
        Ok(mut needs) => put_left_within(alloc, text, &mut needs, asked),
        Err(fault) => {
            put_shown(alloc, text, &fault)?;
            text.extend_from_slice(b"\n")
        }
    }
}

/// The walk that continues at the mark that a text denotes.
fn resumed<'g>(
    alloc: Global,
    graph: &'g EdgeGraph,
    targets: &'g [FileNo],
    text: &str,
) -> Result<Needs<'g>, MarkFault> {
    let mark = Mark::read(alloc, text)?;
    Needs::resume(alloc, graph, targets, &mark)
}

/// Appends an outcome of a walk that was resumed.
fn put_left_within(
    alloc: Global,
    text: &mut Vec<u8>,
    needs: &mut Needs<'_>,
    asked: Left,
) -> Result<(), AllocError> {
    let Left::Edges(most) = asked else {
        return put_place(alloc, text, needs);
    };
    put_left(alloc, text, needs)?;
    if needs.turns() > most {
        text.extend_from_slice(b"too many turns\n")?;
    }
    Ok(())
}

/// Appends the rest of the walk.
fn put_left(alloc: Global, text: &mut Vec<u8>, needs: &mut Needs<'_>) -> Result<(), AllocError> {
    while let Some(edge) = needs.next() {
        put_shown(alloc, text, &edge.0)?;
        text.push(b' ')?;
        put_place(alloc, text, needs)?;
    }
    text.extend_from_slice(b"end ")?;
    put_place(alloc, text, needs)
}

/// Appends the mark at which a walk is, as the end of a line.
fn put_place(alloc: Global, text: &mut Vec<u8>, needs: &Needs<'_>) -> Result<(), AllocError> {
    text.extend_from_slice(b"at ")?;
    put_mark_text(alloc, text, &needs.mark(alloc)?)?;
    text.extend_from_slice(b"\n")
}

/// Appends the paths of files and of the validations of the edges that they need, a line each.
fn put_grown(
    alloc: Global,
    text: &mut Vec<u8>,
    graph: &EdgeGraph,
    paths: &str,
) -> Result<(), AllocError> {
    let targets = files_at(alloc, graph, paths)?;
    let files = grow_targets(alloc, graph, &targets)?;
    for file in &files {
        text.extend_from_slice(graph.path(*file))?;
        text.push(b'\n')?;
    }
    Ok(())
}
