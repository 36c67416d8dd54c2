//! The answers to questions.

use nj_ask::{Status, ask_words};
use nj_rows::{Block, Given, Outcomes, Times, words_of};
use nj_tools::MemorySink;
use std::alloc::{AllocError, Global};

/// The rows of this program.
#[derive(Clone, Copy)]
pub(crate) struct Asked;

impl Outcomes for Asked {
    fn outcome(
        &self,
        alloc: Global,
        given: &Given,
        row: &Block<'_>,
    ) -> Result<Vec<u8>, AllocError> {
        let mut text = Vec::new(alloc);
        match row.kind {
            "ask" => put_answer(alloc, &mut text, given, row.rest)?,
            "ask-cut-off" => put_cut_off(alloc, &mut text, given, row.rest)?,
            "ask-cut-off-errors" => put_cut_off_errors(alloc, &mut text, given, row.rest)?,
            _ => text.extend_from_slice(b"no row is of this kind\n")?,
        }
        Ok(text)
    }
}

/// The outputs of a question, and its status.
#[derive(Drop)]
struct Answered {
    output: MemorySink,
    error: MemorySink,
    status: Status,
}

/// The answer to a question in arguments, over sinks of limited size.
fn answered(
    alloc: Global,
    given: &Given,
    words: &[String],
    most_output: Option<usize>,
    most_error: Option<usize>,
) -> Result<Answered, AllocError> {
    let mut files = given.source(alloc)?;
    let mut built = given.built(alloc)?;
    let times = Times::of(given);
    let mut output = MemorySink::new(alloc, most_output);
    let mut error = MemorySink::new(alloc, most_error);
    let status = ask_words(
        alloc,
        words,
        &mut files,
        &mut built,
        &times,
        given.folder(),
        &given.input,
        &mut output,
        &mut error,
    );
    Ok(Answered {
        output,
        error,
        status,
    })
}

/// Appends standard output, the status in brackets, and standard error. If this does not end with a
/// line end, `<end>` stands in its place.
fn put_answer(
    alloc: Global,
    text: &mut Vec<u8>,
    given: &Given,
    words: &str,
) -> Result<(), AllocError> {
    let words = words_of(alloc, words)?;
    let answered = answered(alloc, given, &words, given.output, given.error)?;
    text.extend_from_slice(answered.output.bytes())?;
    text.push(b'[')?;
    text.push(b'0'.saturating_add(answered.status.code()))?;
    let error = answered.error.bytes();
    if error.is_empty() {
        return text.extend_from_slice(b"]\n");
    }
    text.extend_from_slice(b"] ")?;
    text.extend_from_slice(error)?;
    if !error.ends_with(b"\n") {
        text.extend_from_slice(b"<end>\n")?;
    }
    Ok(())
}

/// Appends standard output, and how many shorter limits for it, down to 0 bytes, end the question
/// with status 4 after the front of the output.
fn put_cut_off(
    alloc: Global,
    text: &mut Vec<u8>,
    given: &Given,
    words: &str,
) -> Result<(), AllocError> {
    let words = words_of(alloc, words)?;
    let whole = answered(alloc, given, &words, None, None)?;
    let whole = whole.output.bytes();
    text.extend_from_slice(whole)?;
    let mut count = 0_usize;
    for limit in 0..whole.len() {
        let cut = answered(alloc, given, &words, Some(limit), None)?;
        let is_front = cut.output.bytes() == &whole[..limit];
        if cut.status.code() == 4 && is_front && cut.error.bytes().is_empty() {
            count = count.saturating_add(1);
        }
    }
    text.extend_from_slice(format!(in alloc; "{count} fail\n")?.as_bytes())
}

/// Appends standard error, and how many shorter limits for it, down to 0 bytes, leave the output
/// unchanged after the front of the errors. The status is 4 if warnings are lost, and unchanged if
/// the line of a fault is.
fn put_cut_off_errors(
    alloc: Global,
    text: &mut Vec<u8>,
    given: &Given,
    words: &str,
) -> Result<(), AllocError> {
    let words = words_of(alloc, words)?;
    let whole = answered(alloc, given, &words, None, None)?;
    let status = if whole.status.code() == 3 {
        4
    } else {
        whole.status.code()
    };
    let told = whole.error.bytes();
    text.extend_from_slice(told)?;
    let mut count = 0_usize;
    for limit in 0..told.len() {
        let cut = answered(alloc, given, &words, None, Some(limit))?;
        let is_same = cut.status.code() == status && cut.output.bytes() == whole.output.bytes();
        if is_same && cut.error.bytes() == &told[..limit] {
            count = count.saturating_add(1);
        }
    }
    text.extend_from_slice(format!(in alloc; "{count} lost\n")?.as_bytes())
}
