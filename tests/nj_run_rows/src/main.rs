//! Runs the rows of runs: each has some files and arguments, and the wanted output. Beside them are
//! the rows of parts of runs: requests, pages, sinks and errors. `nj_call_rows` has the rows of
//! calls.

mod clients;
mod outcomes;
mod pages;
mod requests;
mod runs;
mod sinks;
mod walks;

use crate::outcomes::Runs;
use nj_rows::run_files;
use std::io;
use std::process::ExitCode;

fn main(rt: HostRuntime) -> io::Result<ExitCode> {
    run_files(&rt, &Runs)
}
