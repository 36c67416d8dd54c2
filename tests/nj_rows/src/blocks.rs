//! How a file of rows is read.

use std::alloc::{AllocError, Global};

/// A line of a file of rows that is not indented, with the lines that are indented below it.
#[derive(Drop)]
pub struct Block<'r> {
    /// The number of the line, counted from 1.
    pub line: usize,
    /// The first word of the line.
    pub kind: &'r str,
    /// The rest of the line, after its first word and a space.
    pub rest: &'r str,
    /// The indented lines, each with its line end.
    pub text: Vec<u8>,
}

/// The blocks of a file of rows. Empty lines, and those that begin with `#`, are skipped.
pub fn blocks_of<'r>(alloc: Global, rows: &'r str) -> Result<Vec<Block<'r>>, AllocError> {
    let mut blocks = Vec::new(alloc);
    let mut number = 0_usize;
    for line in rows.lines() {
        number = number.saturating_add(1);
        if let Some(text) = line.strip_prefix("    ") {
            put_line(&mut blocks, text)?;
        } else if !line.is_empty() && !line.starts_with('#') {
            blocks.push(block_of(alloc, number, line))?;
        }
    }
    Ok(blocks)
}

/// The block that begins with the given line, without the lines below it.
fn block_of<'r>(alloc: Global, number: usize, line: &'r str) -> Block<'r> {
    let (kind, rest) = first_of(line);
    Block {
        line: number,
        kind,
        rest,
        text: Vec::new(alloc),
    }
}

/// Appends a line to the text of the last block.
fn put_line(blocks: &mut Vec<Block<'_>>, line: &str) -> Result<(), AllocError> {
    if let Some(block) = blocks.last_mut() {
        put_bytes(&mut block.text, line)?;
        block.text.push(b'\n')?;
    }
    Ok(())
}

/// Appends the bytes that a text denotes: `<09>` is the byte with the given hexadecimal digits, and
/// `<>` is nothing.
fn put_bytes(bytes: &mut Vec<u8>, text: &str) -> Result<(), AllocError> {
    let (first, marked) = text.split_once('<').unwrap_or((text, ""));
    bytes.extend_from_slice(first.as_bytes())?;
    if first.len() < text.len() {
        for piece in marked.split('<') {
            put_piece(bytes, piece)?;
        }
    }
    Ok(())
}

/// Appends the bytes of the text after a `<`.
fn put_piece(bytes: &mut Vec<u8>, piece: &str) -> Result<(), AllocError> {
    let (digits, rest) = piece.split_once('>').unwrap_or(("no byte", ""));
    if let Ok(byte) = u8::from_str_radix(digits, 16) {
        bytes.push(byte)?;
        bytes.extend_from_slice(rest.as_bytes())
    } else if piece.starts_with('>') {
        bytes.extend_from_slice(rest.as_bytes())
    } else {
        bytes.push(b'<')?;
        bytes.extend_from_slice(piece.as_bytes())
    }
}

/// The bytes that a text denotes.
pub fn bytes_of(alloc: Global, text: &str) -> Result<Vec<u8>, AllocError> {
    let mut bytes = Vec::new(alloc);
    put_bytes(&mut bytes, text)?;
    Ok(bytes)
}

/// A word, and the text after the space that ends it.
pub fn first_of(words: &str) -> (&str, &str) {
    words.split_once(' ').unwrap_or((words, ""))
}

/// The words between spaces; `<>` is the empty word.
pub fn words_of(alloc: Global, text: &str) -> Result<Vec<String>, AllocError> {
    let mut words = Vec::new(alloc);
    for word in text.split(' ') {
        if !word.is_empty() {
            words.push(word_of(alloc, word)?)?;
        }
    }
    Ok(words)
}

/// The word that a text denotes.
fn word_of(alloc: Global, text: &str) -> Result<String, AllocError> {
    let bytes = bytes_of(alloc, text)?;
    String::from_str(alloc, str::from_utf8(&bytes).unwrap_or("not UTF-8"))
}
