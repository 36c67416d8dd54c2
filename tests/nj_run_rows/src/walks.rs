//! Walks over the edges that targets need.

use nj_graph::{Graph, pick_target};
use nj_rows::{bytes_of, first_of};
use nj_tools::{Error, Mark, Needs};
use std::alloc::{AllocError, Global};

/// Appends how many edges the walk to a target returns from a mark on, and its turns. Where the row
/// has a limit, turns are counted only above it.
pub(crate) fn put_walk(
    alloc: Global,
    text: &mut Vec<u8>,
    graph: &Graph,
    words: &str,
) -> Result<(), Error> {
    let (target, words) = first_of(words);
    let (mark, most) = first_of(words);
    let target = pick_target(alloc, graph, &bytes_of(alloc, target)?)?;
    let mark = Mark::read(alloc, mark)?;
    let targets = [target];
    let needs = Needs::resume(alloc, graph, &targets, &mark)?;
    put_rest(alloc, text, needs, most)?;
    Ok(())
}

/// Appends how many edges a walk has left, and its turns.
fn put_rest(
    alloc: Global,
    text: &mut Vec<u8>,
    mut needs: Needs<'_>,
    most: &str,
) -> Result<(), AllocError> {
    let edges = count_left(&mut needs);
    put_counts(alloc, text, edges, needs.turns(), most)
}

/// How many edges are left.
fn count_left(needs: &mut Needs<'_>) -> usize {
    let mut count: usize = 0;
    while let Some(_edge) = needs.next() {
        count = count.saturating_add(1);
    }
    count
}

/// Appends how many edges and turns there were.
fn put_counts(
    alloc: Global,
    text: &mut Vec<u8>,
    edges: usize,
    turns: u64,
    most: &str,
) -> Result<(), AllocError> {
    let line = match most.parse::<u64>() {
        Ok(most) if turns <= most => format!(in alloc; "{edges} edges, at most {most} turns\n")?,
        _ => format!(in alloc; "{edges} edges, {turns} turns\n")?,
    };
    text.extend_from_slice(line.as_bytes())
}
