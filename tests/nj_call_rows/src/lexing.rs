//! The results of a lexer's calls, as text.

use crate::printer::{put_answer, put_shown, put_word, steps_of};
use nj_text::{LexFault, Lexer, LineStart, PlainBinding, PlainWord, Sign, Word};
use std::alloc::{AllocError, Global};

/// Appends the steps in which a text is read: each call with its result.
pub fn put_lexed(
    alloc: Global,
    text: &mut Vec<u8>,
    subject: &[u8],
    wanted: &[u8],
) -> Result<(), AllocError> {
    let mut lexer = Lexer::new(subject);
    for step in steps_of(wanted).lines() {
        let (call, _outcome) = step.split_once(' ').unwrap_or((step, ""));
        put_step(alloc, text, &mut lexer, call)?;
    }
    Ok(())
}

/// Makes a call, and appends it with its result, as a line.
fn put_step(
    alloc: Global,
    text: &mut Vec<u8>,
    lexer: &mut Lexer<'_>,
    call: &str,
) -> Result<(), AllocError> {
    text.extend_from_slice(call.as_bytes())?;
    text.push(b' ')?;
    put_outcome(alloc, text, lexer, call)?;
    text.extend_from_slice(b"\n")
}

/// Makes a call, and appends its result.
fn put_outcome(
    alloc: Global,
    text: &mut Vec<u8>,
    lexer: &mut Lexer<'_>,
    call: &str,
) -> Result<(), AllocError> {
    match call {
        "line" => put_start(alloc, text, lexer.start_line()),
        "ident" => put_ident(alloc, text, lexer.ident()),
        "word" => put_path_word(alloc, text, lexer.path_word(alloc)),
        "value" => put_value(alloc, text, lexer.value(alloc)),
        "plain-word" => put_plain_word(alloc, text, lexer.plain_word()),
        "plain-binding" => put_plain_binding(alloc, text, lexer.plain_binding(alloc)),
        "spot" => put_shown(alloc, text, &lexer.spot()),
        "stays" => put_kept(alloc, text, lexer),
        ":" => put_sign(alloc, text, lexer.sign(Sign::Colon)),
        "=" => put_sign(alloc, text, lexer.sign(Sign::Equals)),
        "|" => put_sign(alloc, text, lexer.sign(Sign::Pipe)),
        "||" => put_sign(alloc, text, lexer.sign(Sign::Pipe2)),
        "|@" => put_sign(alloc, text, lexer.sign(Sign::PipeAt)),
        "newline" => put_sign(alloc, text, lexer.sign(Sign::LineEnd)),
        _ => text.extend_from_slice(b"is no call"),
    }
}

fn put_start(
    alloc: Global,
    text: &mut Vec<u8>,
    outcome: Result<LineStart, LexFault>,
) -> Result<(), AllocError> {
    match outcome {
        Ok(LineStart::End) => text.extend_from_slice(b"end"),
        Ok(LineStart::Blank) => text.extend_from_slice(b"blank"),
        Ok(LineStart::Indented) => text.extend_from_slice(b"indented"),
        Ok(LineStart::Plain) => text.extend_from_slice(b"plain"),
        Ok(LineStart::Middle) => text.extend_from_slice(b"middle"),
        Err(fault) => put_shown(alloc, text, &fault),
    }
}

fn put_ident(
    alloc: Global,
    text: &mut Vec<u8>,
    outcome: Result<Option<&[u8]>, LexFault>,
) -> Result<(), AllocError> {
    match outcome {
        Ok(name) => text.extend_from_slice(name.unwrap_or(b"none".as_slice())),
        Err(fault) => put_shown(alloc, text, &fault),
    }
}

fn put_path_word(
    alloc: Global,
    text: &mut Vec<u8>,
    outcome: Result<Option<Word<'_>>, LexFault>,
) -> Result<(), AllocError> {
    match outcome {
        Ok(Some(word)) => put_word(alloc, text, &word),
        Ok(None) => text.extend_from_slice(b"none"),
        Err(fault) => put_shown(alloc, text, &fault),
    }
}

fn put_value(
    alloc: Global,
    text: &mut Vec<u8>,
    outcome: Result<Word<'_>, LexFault>,
) -> Result<(), AllocError> {
    match outcome {
        Ok(value) => put_word(alloc, text, &value),
        Err(fault) => put_shown(alloc, text, &fault),
    }
}

fn put_plain_word(
    alloc: Global,
    text: &mut Vec<u8>,
    taken: PlainWord<'_>,
) -> Result<(), AllocError> {
    match taken {
        PlainWord::Word(spot, bytes) => put_word(alloc, text, &Word::plain(alloc, spot, bytes)),
        PlainWord::NoWord => text.extend_from_slice(b"no word"),
        PlainWord::Unknown => text.extend_from_slice(b"unknown"),
    }
}

/// Appends the place of the name, the name, and the value.
fn put_plain_binding(
    alloc: Global,
    text: &mut Vec<u8>,
    taken: Option<PlainBinding<'_>>,
) -> Result<(), AllocError> {
    let Some(binding) = taken else {
        return text.extend_from_slice(b"none");
    };
    put_shown(alloc, text, &binding.spot)?;
    text.push(b' ')?;
    text.extend_from_slice(binding.name)?;
    text.push(b' ')?;
    put_word(alloc, text, &binding.value)
}

fn put_sign(
    alloc: Global,
    text: &mut Vec<u8>,
    outcome: Result<bool, LexFault>,
) -> Result<(), AllocError> {
    match outcome {
        Ok(is_there) => put_answer(text, is_there),
        Err(fault) => put_shown(alloc, text, &fault),
    }
}

/// Appends the fault that each call returns from now on.
fn put_kept(alloc: Global, text: &mut Vec<u8>, lexer: &mut Lexer<'_>) -> Result<(), AllocError> {
    match lexer.start_line() {
        Err(fault) if is_kept(alloc, lexer, fault) && is_kept(alloc, lexer, fault) => {
            put_shown(alloc, text, &fault)
        }
        _ => text.extend_from_slice(b"no fault"),
    }
}

/// Whether each call returns the fault, and the lexer is at its place.
fn is_kept(alloc: Global, lexer: &mut Lexer<'_>, fault: LexFault) -> bool {
    lexer.start_line() == Err(fault)
        && lexer.ident() == Err(fault)
        && lexer.sign(Sign::LineEnd) == Err(fault)
        && lexer.path_word(alloc).err() == Some(fault)
        && lexer.value(alloc).err() == Some(fault)
        && Some(lexer.spot()) == fault.spot()
}
