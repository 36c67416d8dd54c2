//! The outcomes of rows of runs, as text.

use crate::clients::{put_taken_in, put_work};
use crate::pages::put_pages;
use crate::requests::{put_asked, put_quoted};
use crate::runs::{put_cut_off, put_cut_off_errors, put_run, put_run_and_read, put_run_by_request};
use crate::sinks::{put_to_memory, put_to_writer};
use nj_rows::{Block, Given, Outcomes};
use std::alloc::{AllocError, Global};

/// The rows of this program.
#[derive(Clone, Copy)]
pub(crate) struct Runs;

impl Outcomes for Runs {
    fn outcome(
        &self,
        alloc: Global,
        given: &Given,
        row: &Block<'_>,
    ) -> Result<Vec<u8>, AllocError> {
        let mut text = Vec::new(alloc);
        put_outcome(alloc, &mut text, given, row)?;
        Ok(text)
    }
}

/// Appends the outcome of a row.
fn put_outcome(
    alloc: Global,
    text: &mut Vec<u8>,
    given: &Given,
    row: &Block<'_>,
) -> Result<(), AllocError> {
    match row.kind {
        "run" => put_run(alloc, text, given, row.rest),
        "run-and-read" => put_run_and_read(alloc, text, given, row.rest),
        "run-request" => put_run_by_request(alloc, text, given, row.rest),
        "cut-off" => put_cut_off(alloc, text, given, row.rest),
        "cut-off-errors" => put_cut_off_errors(alloc, text, given, row.rest),
        "pages" => put_pages(alloc, text, given, row.rest),
        "request" => put_asked(alloc, text, row.rest),
        "quoted" => put_quoted(alloc, text, row.rest),
        "turns" | "client" => put_work(alloc, text, given, row.kind, row.rest),
        "one-error" => put_taken_in(alloc, text),
        "memory" => put_to_memory(alloc, text, row.rest),
        "writer" => put_to_writer(alloc, text, row.rest),
        _ => text.extend_from_slice(b"no row is of this kind\n"),
    }
}
