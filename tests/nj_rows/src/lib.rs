//! Files of rows: how they are read, their settings, and how a program runs them. CONTRIBUTING.md
//! describes how rows are written.

mod blocks;
mod given_files;
mod log_parts;
mod repeats;
mod running;
mod times;

pub use blocks::{Block, bytes_of, first_of, words_of};
pub use given_files::{Given, GivenFile};
pub use log_parts::log_of;
pub use running::{Outcomes, run_files};
pub use times::Times;
