//! How a program runs the rows of its files.

use crate::blocks::{Block, blocks_of};
use crate::given_files::Given;
use std::alloc::{AllocError, Global};
use std::process::ExitCode;
use std::rt::{Env, Files};
use std::{env, fs, io};

/// The outcomes of rows.
pub trait Outcomes {
    /// The outcome of a row, as a text.
    fn outcome(&self, alloc: Global, given: &Given, row: &Block<'_>) -> Result<Vec<u8>, AllocError>;
}

/// How many rows there are, and how many of them differ.
#[derive(Clone, Copy)]
struct Count {
    rows: u64,
    differ: u64,
}

impl Count {
    fn add(&mut self, other: Count) {
        self.rows = self.rows.saturating_add(other.rows);
        self.differ = self.differ.saturating_add(other.differ);
    }
}

/// Runs the rows of the files that the program's arguments name. Prints each row whose outcome is
/// not the wanted text, how many rows each file has, and how many there are. The status is 1 if a
/// row differs. An argument `spend=N` does not name a file: it allocates `N` times.
pub fn run_files(
    rt: &(impl Env + Files + Print + AllocGlobal),
    outcomes: &impl Outcomes,
) -> io::Result<ExitCode> {
    let mut all = Count { rows: 0, differ: 0 };
    for name in env::args(rt)?.skip(1) {
        if let Some(times) = name.as_str().strip_prefix("spend=") {
            spend(rt.alloc(), times.parse().unwrap_or(0));
            continue;
        }
        let count = run_file(rt, outcomes, &name)?;
        println!(rt; "{name}: {} rows", count.rows)?;
        all.add(count);
    }
    println!(rt; "{} rows, {} differ", all.rows, all.differ)?;
    Ok(ExitCode::from(u8::from(all.differ != 0)))
}

/// Allocates the given number of times, even where that is refused. `rt try` refuses the allocation
/// with a given number; the count decides which allocation of the rows that is.
fn spend(alloc: Global, times: u64) {
    for number in 0..times {
        let mut numbers = Vec::new(alloc);
        numbers.push(number).ok();
    }
}

/// Runs the rows of a file.
fn run_file(
    rt: &(impl Files + Print + AllocGlobal),
    outcomes: &impl Outcomes,
    name: &str,
) -> io::Result<Count> {
    let text = fs::read_to_string(rt, name)?;
    let blocks = blocks_of(rt.alloc(), &text)?;
    run_blocks(rt, outcomes, name, &blocks)
}

/// Runs the rows among the blocks of a file.
fn run_blocks(
    rt: &(impl Print + AllocGlobal),
    outcomes: &impl Outcomes,
    name: &str,
    blocks: &[Block<'_>],
) -> io::Result<Count> {
    let mut given = Given::new(rt.alloc());
    let mut count = Count { rows: 0, differ: 0 };
    for block in blocks {
        if !given.read(rt.alloc(), block)? {
            count.add(run_row(rt, outcomes, name, &given, block)?);
            given.end_row();
        }
    }
    Ok(count)
}

/// Runs a row, and prints how its outcome differs from the wanted outcome.
fn run_row(
    rt: &(impl Print + AllocGlobal),
    outcomes: &impl Outcomes,
    name: &str,
    given: &Given,
    row: &Block<'_>,
) -> io::Result<Count> {
    let wanted = given.wanted(rt.alloc(), row)?;
    let came = outcomes.outcome(rt.alloc(), given, row)?;
    if came.as_slice() == wanted.as_slice() {
        return Ok(Count { rows: 1, differ: 0 });
    }
    print_difference(rt, name, row.line, &wanted, &came)?;
    Ok(Count { rows: 1, differ: 1 })
}

/// Prints the wanted outcome of the row at a line, and the outcome that came.
fn print_difference(
    rt: &(impl Print + AllocGlobal),
    name: &str,
    line: usize,
    wanted: &[u8],
    came: &[u8],
) -> io::Result<()> {
    let wanted = String::from_utf8_lossy(rt.alloc(), wanted)?;
    let came = String::from_utf8_lossy(rt.alloc(), came)?;
    print_texts(rt, name, line, &wanted, &came)
}

/// Prints the text that was wanted of the row at a line, and the text that came.
fn print_texts(
    rt: &impl Print,
    name: &str,
    line: usize,
    wanted: &str,
    came: &str,
) -> io::Result<()> {
    println!(rt; "{name}:{line}: wanted {wanted:?}, came {came:?}")
}
