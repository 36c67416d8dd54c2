//! How faults are shown and reported.

use crate::printer::put_shown;
use nj_deps::DepsLogFault;
use nj_faults::{Cause, GraphFault, Name, PlaceRef};
use nj_manifest::{LexFault, ParseFault, Spot};
use nj_needs::MarkFault;
use nj_rows::bytes_of;
use nj_scope::SourceFault;
use nj_text::TextFault;
use std::alloc::{AllocError, Global};

/// Appends how a fault of a library is shown, as a line.
pub fn put_shown_fault(alloc: Global, text: &mut Vec<u8>, asked: &str) -> Result<(), AllocError> {
    let spot = Spot { line: 3, column: 9 };
    let outcome = match asked {
        "LexFault::OutOfMemory" => put_shown(alloc, text, &LexFault::OutOfMemory),
        "TextFault::OutOfMemory" => put_shown(alloc, text, &TextFault::OutOfMemory),
        "SourceFault::OutOfMemory" => put_shown(alloc, text, &SourceFault::OutOfMemory),
        "MarkFault::OutOfMemory" => put_shown(alloc, text, &MarkFault::OutOfMemory),
        "DepsLogFault::OutOfMemory" => put_shown(alloc, text, &DepsLogFault::OutOfMemory),
        "ParseFault::OutOfMemory" => {
            put_shown(alloc, text, &ParseFault::Lex(LexFault::OutOfMemory))
        }
        "ParseFault::UnknownKey" => put_shown(
            alloc,
            text,
            &ParseFault::UnknownKey(spot, b"d\xFFp"),
        ),
        _ => text.extend_from_slice(b"no fault"),
    };
    outcome?;
    text.extend_from_slice(b"\n")
}

/// Appends the line of a fault of a graph, that for the program `audit`, that without a program's
/// name, and how the fault and its cause are shown, each as a line.
pub fn put_reported(alloc: Global, text: &mut Vec<u8>, asked: &str) -> Result<(), AllocError> {
    let fault = fault_of(alloc, asked)?;
    put_lines(alloc, text, &fault)
}

fn put_lines(alloc: Global, text: &mut Vec<u8>, fault: &GraphFault) -> Result<(), AllocError> {
    text.extend_from_slice(&fault.line(alloc)?)?;
    text.push(b'\n')?;
    text.extend_from_slice(&fault.line_for(alloc, "audit")?)?;
    text.push(b'\n')?;
    text.extend_from_slice(&fault.bare_line(alloc)?)?;
    text.push(b'\n')?;
    put_shown(alloc, text, fault)?;
    text.push(b'\n')?;
    put_shown(alloc, text, &fault.cause)?;
    text.extend_from_slice(b"\n")
}

/// The fault that a text describes: `unknown-rule NAME FILE`, at line 7 and column 11 of the file,
/// `no-statement OUTPUT FILE`, without a location, or else a lack of memory.
fn fault_of(alloc: Global, asked: &str) -> Result<GraphFault, AllocError> {
    let (kind, names) = asked.split_once(' ').unwrap_or((asked, ""));
    let (first, second) = names.split_once(' ').unwrap_or((names, ""));
    let first = Name::from(bytes_of(alloc, first)?);
    let second = bytes_of(alloc, second)?;
    let spot = Spot {
        line: 7,
        column: 11,
    };
    Ok(match kind {
        "unknown-rule" => PlaceRef {
            file: &second,
            spot,
        }
        .fault(alloc, Cause::UnknownRule(first)),
        "no-statement" => GraphFault::unplaced(Cause::DyndepNoStatement(first, second.into())),
        _ => GraphFault::out_of_memory(),
    })
}
