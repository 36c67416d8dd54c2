//! How runs end.

use nj_cli::{
    Action, FileSource, Mark, MemoryFiles, MemorySink, Request, SourceFault, Status, run_tool,
    run_words,
};
use nj_rows::{Given, first_of, words_of};
use std::alloc::{AllocError, Global};

/// The output of a run.
fn output_of(alloc: Global, given: &Given) -> MemorySink {
    MemorySink::new(alloc, given.output)
}

/// The standard error of a run.
fn error_of(alloc: Global, given: &Given) -> MemorySink {
    MemorySink::new(alloc, given.error)
}

/// Appends how a run with the given arguments ends.
pub(crate) fn put_run(
    alloc: Global,
    text: &mut Vec<u8>,
    given: &Given,
    words: &str,
) -> Result<(), AllocError> {
    let mut files = given.source(alloc)?;
    put_run_over(alloc, text, given, &mut files, words)
}

/// Appends how a run with the given arguments ends over the files.
fn put_run_over(
    alloc: Global,
    text: &mut Vec<u8>,
    given: &Given,
    files: &mut MemoryFiles,
    words: &str,
) -> Result<(), AllocError> {
    let words = words_of(alloc, words)?;
    let mut output = output_of(alloc, given);
    let mut error = error_of(alloc, given);
    let status = run_words(alloc, files, &words, &mut output, &mut error);
    put_ending(text, status, output.bytes(), error.bytes())
}

/// Appends how a run ends, and whether the next reading is the one that fails.
pub(crate) fn put_run_and_read(
    alloc: Global,
    text: &mut Vec<u8>,
    given: &Given,
    words: &str,
) -> Result<(), AllocError> {
    let mut files = given.source(alloc)?;
    put_run_over(alloc, text, given, &mut files, words)?;
    let line: &[u8] = match files.read(alloc, "") {
        Err(SourceFault::Io) => b"the next reading fails\n",
        _ => b"the next reading does not fail\n",
    };
    text.extend_from_slice(line)
}

/// Appends the output of a run, its status in brackets, and its standard error. If this does not
/// end with a line end, `<end>` stands in its place.
fn put_ending(
    text: &mut Vec<u8>,
    status: Status,
    output: &[u8],
    error: &[u8],
) -> Result<(), AllocError> {
    text.extend_from_slice(output)?;
    text.push(b'[')?;
    text.push(b'0'.saturating_add(status.code()))?;
    if error.is_empty() {
        return text.extend_from_slice(b"]\n");
    }
    text.extend_from_slice(b"] ")?;
    text.extend_from_slice(error)?;
    if !error.ends_with(b"\n") {
        text.extend_from_slice(b"<end>\n")?;
    }
    Ok(())
}

/// Appends how a run by a request ends, for at most two commands that a target needs in a file.
pub(crate) fn put_run_by_request(
    alloc: Global,
    text: &mut Vec<u8>,
    given: &Given,
    file_and_target: &str,
) -> Result<(), AllocError> {
    let (file, target) = first_of(file_and_target);
    let request = request_for(alloc, file, target)?;
    let mut files = given.source(alloc)?;
    put_request(alloc, text, given, &mut files, &request)
}

/// Appends how a run by a request ends.
fn put_request(
    alloc: Global,
    text: &mut Vec<u8>,
    given: &Given,
    files: &mut MemoryFiles,
    request: &Request,
) -> Result<(), AllocError> {
    let mut output = output_of(alloc, given);
    let mut error = error_of(alloc, given);
    let status = run_tool(alloc, files, request, &mut output, &mut error);
    put_ending(text, status, output.bytes(), error.bytes())
}

/// A request for the first two commands that a target needs in a file.
fn request_for(alloc: Global, file: &str, target: &str) -> Result<Request, AllocError> {
    let file = String::from_str(alloc, file)?;
    let action = Action::Commands {
        targets: words_of(alloc, target)?,
        validations: false,
        take: Some(2),
        start: Mark::start(alloc),
    };
    Ok(Request {
        file,
        from_stdin: false,
        dyndep: false,
        action,
    })
}

/// Appends the output of a run, and how many shorter limits for it, down to 0 bytes, end the run
/// with status 4 after the front of the output.
pub(crate) fn put_cut_off(
    alloc: Global,
    text: &mut Vec<u8>,
    given: &Given,
    words: &str,
) -> Result<(), AllocError> {
    let words = words_of(alloc, words)?;
    let mut files = given.source(alloc)?;
    put_output(alloc, text, given, &mut files, &words)?;
    put_cut(alloc, text, &mut files, &words)
}

/// Appends the standard output of a run.
fn put_output(
    alloc: Global,
    text: &mut Vec<u8>,
    given: &Given,
    files: &mut MemoryFiles,
    words: &[String],
) -> Result<(), AllocError> {
    let mut output = output_of(alloc, given);
    let mut error = error_of(alloc, given);
    run_words(alloc, files, words, &mut output, &mut error);
    text.extend_from_slice(output.bytes())
}

/// Appends how many limits below the size of the text end a run as they should.
fn put_cut(
    alloc: Global,
    text: &mut Vec<u8>,
    files: &mut MemoryFiles,
    words: &[String],
) -> Result<(), AllocError> {
    let whole = text.as_slice();
    let mut count = 0_usize;
    for limit in 0..whole.len() {
        if ends_at(alloc, files, words, &whole[..limit]) {
            count = count.saturating_add(1);
        }
    }
    text.extend_from_slice(format!(in alloc; "{count} fail\n")?.as_bytes())
}

/// Whether a run whose standard output accepts exactly the given bytes ends with status 4 after
/// them.
fn ends_at(alloc: Global, files: &mut MemoryFiles, words: &[String], front: &[u8]) -> bool {
    let mut output = MemorySink::new(alloc, Some(front.len()));
    let mut error = MemorySink::new(alloc, None);
    let status = run_words(alloc, files, words, &mut output, &mut error);
    status.code() == 4 && output.bytes() == front && error.bytes().is_empty()
}

/// Appends the standard error of a run, and how many shorter limits for it, down to 0 bytes, leave
/// the output unchanged after the front of the errors. A run that loses its mark fails; one that
/// loses the line of a fault does not.
pub(crate) fn put_cut_off_errors(
    alloc: Global,
    text: &mut Vec<u8>,
    given: &Given,
    words: &str,
) -> Result<(), AllocError> {
    let words = words_of(alloc, words)?;
    let mut files = given.source(alloc)?;
    let mut output = MemorySink::new(alloc, None);
    let mut error = MemorySink::new(alloc, None);
    let status = run_words(alloc, &mut files, &words, &mut output, &mut error).code();
    let status = if status == 3 { 4 } else { status };
    text.extend_from_slice(error.bytes())?;
    let mut count = 0_usize;
    for limit in 0..error.bytes().len() {
        let mut kept = MemorySink::new(alloc, None);
        let mut cut = MemorySink::new(alloc, Some(limit));
        let ended = run_words(alloc, &mut files, &words, &mut kept, &mut cut).code();
        let is_same = ended == status && kept.bytes() == output.bytes();
        if is_same && cut.bytes() == &error.bytes()[..limit] {
            count = count.saturating_add(1);
        }
    }
    text.extend_from_slice(format!(in alloc; "{count} lost\n")?.as_bytes())
}
