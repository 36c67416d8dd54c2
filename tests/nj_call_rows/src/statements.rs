//! The readings of texts, line by line: manifests and dyndep files.

use crate::printer::{put_shown, put_word};
use nj_manifest::{Build, DyndepParser, Entry, Line, Parser, Spot, Statement, Word};
use std::alloc::{AllocError, Global};

/// How often a parser is called for a text: more often than any text of a row has statements.
const CALLS: usize = 9;

/// The kind of file as which a text is read.
#[derive(Clone, Copy)]
pub enum Grammar {
    Manifest,
    Dyndep,
}

#[derive(Drop)]
enum Reader<'a> {
    Manifest(Parser<'a>),
    Dyndep(DyndepParser<'a>),
}

/// Appends the statements or entries of a text, a line each, and then the fault or `end`, which
/// each further call returns.
pub fn put_parsed(
    alloc: Global,
    text: &mut Vec<u8>,
    grammar: Grammar,
    subject: &[u8],
) -> Result<(), AllocError> {
    let mut reader = match grammar {
        Grammar::Manifest => Reader::Manifest(Parser::new(subject)),
        Grammar::Dyndep => Reader::Dyndep(DyndepParser::new(subject)),
    };
    put_all(alloc, text, &mut reader)
}

/// Appends the results of the calls.
fn put_all(alloc: Global, text: &mut Vec<u8>, reader: &mut Reader<'_>) -> Result<(), AllocError> {
    for _ in 0..CALLS {
        put_next(alloc, text, reader)?;
    }
    Ok(())
}

/// Appends the result of the next call, as a line, unless that is the last line already.
fn put_next(alloc: Global, text: &mut Vec<u8>, reader: &mut Reader<'_>) -> Result<(), AllocError> {
    let mut line = Vec::new(alloc);
    match reader {
        Reader::Manifest(parser) => put_next_statement(alloc, &mut line, parser)?,
        Reader::Dyndep(parser) => put_next_entry(alloc, &mut line, parser)?,
    }
    if text.ends_with(&line) {
        return Ok(());
    }
    text.extend_from_slice(&line)
}

/// Appends a line of the next statement, which is given back to the parser.
fn put_next_statement(
    alloc: Global,
    text: &mut Vec<u8>,
    parser: &mut Parser<'_>,
) -> Result<(), AllocError> {
    match parser.next_statement(alloc) {
        Ok(Some(statement)) => {
            put_statement(alloc, text, statement.spot, &statement.item)?;
            parser.reuse(statement.item);
        }
        Ok(None) => text.extend_from_slice(b"end")?,
        Err(fault) => put_shown(alloc, text, &fault)?,
    }
    text.extend_from_slice(b"\n")
}

/// Appends a line of the next entry.
fn put_next_entry(
    alloc: Global,
    text: &mut Vec<u8>,
    parser: &mut DyndepParser<'_>,
) -> Result<(), AllocError> {
    match parser.next_entry(alloc) {
        Ok(Some(entry)) => put_entry(alloc, text, &entry)?,
        Ok(None) => text.extend_from_slice(b"end")?,
        Err(fault) => put_shown(alloc, text, &fault)?,
    }
    text.extend_from_slice(b"\n")
}

/// Appends the place of a statement, and the statement.
fn put_statement(
    alloc: Global,
    text: &mut Vec<u8>,
    spot: Spot,
    statement: &Statement<'_>,
) -> Result<(), AllocError> {
    put_shown(alloc, text, &spot)?;
    text.push(b' ')?;
    match statement {
        Statement::Binding { name, value } => put_binding(alloc, text, name, value),
        Statement::Rule(rule) => {
            put_named(alloc, text, b"rule ", rule.name_spot, rule.name)?;
            put_block(alloc, text, &rule.lines)
        }
        Statement::Pool(pool) => {
            put_named(alloc, text, b"pool ", pool.name_spot, pool.name)?;
            put_block(alloc, text, &pool.lines)
        }
        Statement::Build(build) => put_build(alloc, text, build),
        Statement::Default { words } => put_words(alloc, text, b"default", words),
        Statement::Include { word } => put_keyword(alloc, text, b"include ", word),
        Statement::Subninja { word } => put_keyword(alloc, text, b"subninja ", word),
    }
}

/// Appends a build statement.
fn put_build(alloc: Global, text: &mut Vec<u8>, build: &Build<'_>) -> Result<(), AllocError> {
    text.extend_from_slice(b"build")?;
    put_words(alloc, text, b"", &build.explicit_outs)?;
    put_words(alloc, text, b" |", &build.implicit_outs)?;
    put_named(alloc, text, b" : ", build.rule_spot, build.rule)?;
    put_words(alloc, text, b"", &build.explicit)?;
    put_words(alloc, text, b" |", &build.implicit)?;
    put_words(alloc, text, b" ||", &build.order_only)?;
    put_words(alloc, text, b" |@", &build.validations)?;
    put_block(alloc, text, &build.lines)
}

/// Appends an entry of a dyndep file.
fn put_entry(alloc: Global, text: &mut Vec<u8>, entry: &Entry<'_>) -> Result<(), AllocError> {
    put_word(alloc, text, &entry.out)?;
    put_words(alloc, text, b" |", &entry.outs)?;
    text.extend_from_slice(b" :")?;
    put_words(alloc, text, b" |", &entry.ins)?;
    if entry.restat {
        text.extend_from_slice(b" restat")?;
    }
    Ok(())
}

/// Appends words after their sign; nothing without words.
fn put_words(
    alloc: Global,
    text: &mut Vec<u8>,
    sign: &[u8],
    words: &[Word<'_>],
) -> Result<(), AllocError> {
    if !words.is_empty() {
        text.extend_from_slice(sign)?;
    }
    for word in words {
        text.push(b' ')?;
        put_word(alloc, text, word)?;
    }
    Ok(())
}

/// Appends a keyword, and a word.
fn put_keyword(
    alloc: Global,
    text: &mut Vec<u8>,
    keyword: &[u8],
    word: &Word<'_>,
) -> Result<(), AllocError> {
    text.extend_from_slice(keyword)?;
    put_word(alloc, text, word)
}

/// Appends a keyword, and a name at its place.
fn put_named(
    alloc: Global,
    text: &mut Vec<u8>,
    keyword: &[u8],
    spot: Spot,
    name: &[u8],
) -> Result<(), AllocError> {
    text.extend_from_slice(keyword)?;
    put_shown(alloc, text, &spot)?;
    text.push(b' ')?;
    text.extend_from_slice(name)
}

/// Appends a name, `=` and a value.
fn put_binding(
    alloc: Global,
    text: &mut Vec<u8>,
    name: &[u8],
    value: &Word<'_>,
) -> Result<(), AllocError> {
    text.extend_from_slice(name)?;
    text.extend_from_slice(b" = ")?;
    put_word(alloc, text, value)
}

/// Appends the lines of a block, each as a line with its place, its name and its value.
fn put_block(alloc: Global, text: &mut Vec<u8>, lines: &[Line<'_>]) -> Result<(), AllocError> {
    for line in lines {
        text.extend_from_slice(b"\n  ")?;
        put_shown(alloc, text, &line.spot)?;
        text.push(b' ')?;
        put_binding(alloc, text, line.name, &line.value)?;
    }
    Ok(())
}
