//! The requests of arguments, as text.

use nj_cli::{Action, InputsStyle, Mark, Request, TargetsView, UsageFault, read_words};
use nj_rows::words_of;
use std::alloc::{AllocError, Global};
use std::fmt::Write;

/// The arguments, each between brackets.
fn put_words(text: &mut String, words: &[String]) -> Result<(), AllocError> {
    for word in words {
        text.push_str(" [")?;
        text.push_str(word.as_str())?;
        text.push_str("]")?;
    }
    Ok(())
}

/// The tool, with its arguments.
fn put_tool(text: &mut String, tool: &str, words: &[String]) -> Result<(), AllocError> {
    text.push_str(tool)?;
    put_words(text, words)
}

/// The names whose flag is on.
fn put_flags(text: &mut String, flags: &[(bool, &str)]) -> Result<(), AllocError> {
    for (is_on, name) in flags {
        if *is_on {
            text.push_str(", ")?;
            text.push_str(name)?;
        }
    }
    Ok(())
}

/// The action of `commands`.
fn put_commands(
    alloc: Global,
    text: &mut String,
    targets: &[String],
    take: Option<u64>,
    start: &Mark,
) -> Result<(), AllocError> {
    put_tool(text, "commands", targets)?;
    if let Some(number) = take {
        write!(text, " take {number}")?;
    }
    write!(text, " from {}", start.to_text(alloc)?.as_str())
}

/// The action of `inputs`.
fn put_inputs(
    text: &mut String,
    targets: &[String],
    validations: bool,
    style: InputsStyle,
) -> Result<(), AllocError> {
    put_tool(text, "inputs", targets)?;
    put_flags(
        text,
        &[
            (validations, "validations"),
            (style.dependency_order, "in dependency order"),
            (!style.shell_escape, "not escaped"),
            (style.zero, "each before a zero"),
        ],
    )
}

/// The list of `targets`.
fn put_view(text: &mut String, view: &TargetsView) -> Result<(), AllocError> {
    match view {
        TargetsView::OfRule(rule) => {
            let name = str::from_utf8(rule.as_bytes()).unwrap_or("");
            write!(text, "targets of rule {name}")
        }
        TargetsView::Sources => text.push_str("sources"),
        TargetsView::Depth(depth) => write!(text, "targets to depth {depth}"),
        TargetsView::All => text.push_str("all targets"),
    }
}

/// The action.
fn put_action(alloc: Global, text: &mut String, action: &Action) -> Result<(), AllocError> {
    match action {
        Action::Commands {
            targets,
            validations,
            take,
            start,
        } => {
            put_commands(alloc, text, targets, *take, start)?;
            put_flags(text, &[(*validations, "validations")])
        }
        Action::SingleCommands { targets } => put_tool(text, "single commands", targets),
        Action::Inputs {
            targets,
            validations,
            style,
        } => put_inputs(text, targets, *validations, *style),
        Action::Targets { view } => put_view(text, view),
        Action::Query { files } => put_tool(text, "query", files),
        Action::Rules { descriptions } => write!(text, "rules, descriptions {descriptions}"),
        Action::Compdb {
            rules,
            directory,
            expand,
        } => {
            put_tool(text, "compdb", rules)?;
            write!(text, " in {}, expand {expand}", directory.as_str())
        }
    }
}

/// A request.
fn request_text(alloc: Global, request: &Request) -> Result<String, AllocError> {
    let input = if request.from_stdin { "stdin as " } else { "" };
    let joined = if request.dyndep { "joined " } else { "" };
    let mut text = format!(in alloc; "{joined}{input}{}: ", request.file.as_str())?;
    put_action(alloc, &mut text, &request.action)?;
    Ok(text)
}

/// Appends the request of arguments, or the line of their fault.
pub(crate) fn put_asked(alloc: Global, text: &mut Vec<u8>, words: &str) -> Result<(), AllocError> {
    let words = words_of(alloc, words)?;
    match read_words(alloc, &words) {
        Ok(request) => put_request(alloc, text, &request),
        Err(fault) => put_fault(alloc, text, &fault),
    }
}

/// Appends a request, as a line.
fn put_request(alloc: Global, text: &mut Vec<u8>, request: &Request) -> Result<(), AllocError> {
    let asked = request_text(alloc, request)?;
    text.extend_from_slice(asked.as_bytes())?;
    text.extend_from_slice(b"\n")
}

/// Appends the line of a fault.
fn put_fault(alloc: Global, text: &mut Vec<u8>, fault: &UsageFault) -> Result<(), AllocError> {
    let line = fault.line(alloc)?;
    text.extend_from_slice(&line)?;
    text.extend_from_slice(b"\n")
}

/// Appends the text that the fault of arguments quotes, and its own text.
pub(crate) fn put_quoted(alloc: Global, text: &mut Vec<u8>, words: &str) -> Result<(), AllocError> {
    let words = words_of(alloc, words)?;
    match read_words(alloc, &words) {
        Ok(_) => text.extend_from_slice(b"no fault\n"),
        Err(fault) => put_quoted_by(alloc, text, &fault),
    }
}

/// Appends the text that a fault quotes, and its own text.
fn put_quoted_by(alloc: Global, text: &mut Vec<u8>, fault: &UsageFault) -> Result<(), AllocError> {
    let line = match fault {
        UsageFault::ForeignOption { option, tool } => {
            format!(in alloc; "{} of {}: {fault}\n", option.text(), tool.as_str())?
        }
        UsageFault::UnknownTool(word)
        | UsageFault::BadNumber(word)
        | UsageFault::BadMark(word)
        | UsageFault::BadWords(word) => format!(in alloc; "{}: {fault}\n", word.as_str())?,
        _ => format!(in alloc; "nothing: {fault}\n")?,
    };
    text.extend_from_slice(line.as_bytes())
}
