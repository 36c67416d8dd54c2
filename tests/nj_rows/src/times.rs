//! The times of files.

ghost use Rattle.std.specs.Prelude.{None};

use crate::given_files::Given;
use nj_discovered::FileTimes;
use nj_scope::SourceFault;

/// The times of the lines `TIME PATH` of the file `times`; `TIME` is a number, or `fails`.
#[derive(Drop)]
pub struct Times<'a> {
    lines: &'a str,
}

impl<'a> Times<'a> {
    /// The times of the files of a row.
    pub fn of(given: &'a Given) -> Times<'a> {
        Times {
            lines: str::from_utf8(given.bytes("times")).unwrap_or(""),
        }
    }
}

impl<'a> FileTimes for Times<'a> {
    ghost times = { λ _ path. None };

    fn time(&self, path: &str) -> Result<Option<u64>, SourceFault> {
        for line in self.lines.lines() {
            if let Some((time, named)) = line.split_once(' ') {
                if named == path {
                    return match time.parse() {
                        Ok(time) => Ok(Some(time)),
                        Err(_) => Err(SourceFault::Io),
                    };
                }
            }
        }
        Ok(None)
    }
}
