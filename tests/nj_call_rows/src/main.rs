//! Runs the rows of calls: each has results of one library, of those up to the graph, of deps
//! logs, build logs or depfiles. `nj_run_rows` has the rows of runs.

mod build_logs;
mod build_tests;
mod calls;
mod chains;
mod changes;
mod chosen;
mod declared;
mod depfiles;
mod deps_logs;
mod discovered;
mod globs;
mod graphs;
mod handles;
mod joined_logs;
mod keys;
mod lexing;
mod lists;
mod loads;
mod marks;
mod present;
mod printer;
mod reached;
mod shown_faults;
mod small_graphs;
mod small_walks;
mod sources;
mod stale;
mod statements;
mod texts;

use crate::calls::Calls;
use crate::keys::DrawnKeys;
use nj_rows::run_files;
use std::io;
use std::process::ExitCode;

fn main(rt: HostRuntime) -> io::Result<ExitCode> {
    let calls = Calls {
        keys: DrawnKeys::draw(rt)?,
    };
    run_files(&rt, &calls)
}
