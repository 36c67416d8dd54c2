//! The contents of build logs, and the hashes that they have.

use crate::printer::put_shown;
use nj_build_log::{BuildLog, Entry, LogVersion, command_hash};
use std::alloc::{AllocError, Global};

/// Appends the contents of a build log, or its fault, as lines. Where the row has a count, each `~`
/// stands for that many bytes `x`.
pub fn put_build_log(
    alloc: Global,
    text: &mut Vec<u8>,
    log: &[u8],
    count: &str,
) -> Result<(), AllocError> {
    let bytes = lengthened(alloc, log, count.parse().unwrap_or(1))?;
    match BuildLog::read(alloc, &bytes) {
        Ok(log) => put_log(alloc, text, &log),
        Err(fault) => {
            put_shown(alloc, text, &fault)?;
            text.extend_from_slice(b"\n")
        }
    }
}

/// The text with the given number of bytes `x` in place of each `~`.
fn lengthened(alloc: Global, log: &[u8], count: usize) -> Result<Vec<u8>, AllocError> {
    let mut bytes = Vec::new(alloc);
    for byte in log {
        if *byte == b'~' {
            for _ in 0..count {
                bytes.push(b'x')?;
            }
        } else {
            bytes.push(*byte)?;
        }
    }
    Ok(bytes)
}

/// Appends the version, the outputs with what the log says of them, and the number of lines.
fn put_log(alloc: Global, text: &mut Vec<u8>, log: &BuildLog) -> Result<(), AllocError> {
    if let Some(version) = log.version() {
        text.extend_from_slice(format!(in alloc; "version {version:?}\n")?.as_bytes())?;
    }
    for output in log.outputs() {
        put_output(alloc, text, output, log.entry(output))?;
    }
    let outputs = log.output_count();
    let lines = log.line_count();
    text.extend_from_slice(format!(in alloc; "outputs {outputs}, lines {lines}\n")?.as_bytes())
}

/// Appends a line for an output. Of a long path only the length is shown.
fn put_output(
    alloc: Global,
    text: &mut Vec<u8>,
    output: &[u8],
    entry: Option<Entry>,
) -> Result<(), AllocError> {
    if output.len() > 100 {
        text.extend_from_slice(format!(in alloc; "{} bytes", output.len())?.as_bytes())?;
    } else {
        text.extend_from_slice(output)?;
    }
    let Some(entry) = entry else {
        return text.extend_from_slice(b": none\n");
    };
    let shown = format!(in alloc;
        ": {} to {}, time {}, hash {:x}\n",
        entry.start, entry.end, entry.time, entry.hash
    )?;
    text.extend_from_slice(shown.as_bytes())
}

/// Appends the hash of a command in a log of the given version, in hexadecimal digits.
pub fn put_command_hash(
    alloc: Global,
    text: &mut Vec<u8>,
    version: &str,
    command: &[u8],
    contents: &[u8],
) -> Result<(), AllocError> {
    let version = match version {
        "5" => LogVersion::Five,
        "6" => LogVersion::Six,
        _ => LogVersion::Seven,
    };
    let hash = command_hash(version, command, contents);
    text.extend_from_slice(format!(in alloc; "{hash:x}\n")?.as_bytes())
}
