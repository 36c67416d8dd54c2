//! Sinks, to which whole texts are written.

use nj_rows::first_of;
use nj_tools::{MemorySink, WriteSink, write_whole};
use std::alloc::{AllocError, Global};
use std::io;
use std::io::{ErrorKind, Write};

/// The lines that are written to the sinks.
const LINES: &[u8] = b"mk a\nmk b1\n";

/// Appends the bytes of two lines that a sink in memory accepts within a limit, and how often it
/// failed.
pub(crate) fn put_to_memory(
    alloc: Global,
    text: &mut Vec<u8>,
    limit: &str,
) -> Result<(), AllocError> {
    let mut sink = MemorySink::new(alloc, limit.parse().ok());
    let is_well = write_whole(&mut sink, LINES).is_ok();
    text.extend_from_slice(sink.bytes())?;
    put_ending(alloc, text, is_well, "failures", sink.failures())
}

/// Appends the bytes of two lines that a writer accepts, at most a given number per call, where the
/// call with the given number is interrupted; and how often it was called.
pub(crate) fn put_to_writer(
    alloc: Global,
    text: &mut Vec<u8>,
    numbers: &str,
) -> Result<(), AllocError> {
    let (most, interrupted) = first_of(numbers);
    let mut writer = Slow {
        taken: Vec::new(alloc),
        most: most.parse().unwrap_or(0),
        calls: 0,
        interrupted: interrupted.parse().unwrap_or(0),
    };
    let is_well = write_whole(&mut WriteSink::new(&mut writer), LINES).is_ok();
    text.extend_from_slice(&writer.taken)?;
    put_ending(alloc, text, is_well, "calls", writer.calls)
}

/// Appends how a writing ended, as a line.
fn put_ending(
    alloc: Global,
    text: &mut Vec<u8>,
    is_well: bool,
    counted: &str,
    count: u64,
) -> Result<(), AllocError> {
    let ending = if is_well { "done" } else { "failed" };
    text.extend_from_slice(format!(in alloc; "[{ending}, {count} {counted}]\n")?.as_bytes())
}

/// Accepts at most a given number of bytes per call, and counts the calls. One call is interrupted.
#[derive(Drop)]
struct Slow {
    taken: Vec<u8>,
    most: usize,
    calls: u64,
    interrupted: u64,
}

impl Write for Slow {
    fn write(&mut self, buf: &[u8]) -> io::Result<usize> {
        self.calls = self.calls.saturating_add(1);
        if self.calls == self.interrupted {
            return Err(io::Error::from(ErrorKind::Interrupted));
        }
        let count = buf.len().min(self.most);
        self.taken.extend_from_slice(&buf[..count])?;
        Ok(count)
    }

    fn flush(&mut self) -> io::Result<()> {
        Ok(())
    }
}
