//! Runs the rows of `ninja-graph`: each has some files, their times, arguments and standard input, and
//! the wanted outputs and status.

mod asked;

use crate::asked::Asked;
use nj_rows::run_files;
use std::io;
use std::process::ExitCode;

fn main(rt: HostRuntime) -> io::Result<ExitCode> {
    run_files(&rt, &Asked)
}
