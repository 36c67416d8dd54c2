//! The outcomes of rows of calls, as text.

use crate::build_logs::{put_build_log, put_command_hash};
use crate::build_tests::{put_names, put_pieces};
use crate::chosen::{put_chosen, put_test_texts};
use crate::depfiles::put_depfile;
use crate::deps_logs::put_of_log;
use crate::discovered::{put_dirtied, put_discovered, put_joined_discoveries};
use crate::globs::put_matched;
use crate::joined_logs::{put_joined, put_undeclared};
use crate::keys::DrawnKeys;
use crate::lexing::put_lexed;
use crate::lists::{put_ctest, put_meson};
use crate::loads::{put_comparison, put_of_files};
use crate::marks::{put_mark, put_mark_of};
use crate::present::put_present;
use crate::shown_faults::{put_reported, put_shown_fault};
use crate::small_graphs::{put_chain, put_collected, put_of_edges};
use crate::sources::put_sources;
use crate::stale::put_stale;
use crate::statements::{Grammar, put_parsed};
use crate::texts::{put_clean, put_hash, put_in_turn, put_meant};
use nj_rows::{Block, Given, Outcomes, bytes_of, first_of, words_of};
use std::alloc::{AllocError, Global};

/// The rows of this program.
#[derive(Clone, Copy)]
pub(crate) struct Calls {
    /// Keys of hashes, which are drawn once.
    pub keys: DrawnKeys,
}

impl Outcomes for Calls {
    fn outcome(
        &self,
        alloc: Global,
        given: &Given,
        row: &Block<'_>,
    ) -> Result<Vec<u8>, AllocError> {
        let mut text = Vec::new(alloc);
        put_call(alloc, &mut text, self.keys, given, row)?;
        Ok(text)
    }
}

/// Appends the outcome of a row.
fn put_call(
    alloc: Global,
    text: &mut Vec<u8>,
    keys: DrawnKeys,
    given: &Given,
    row: &Block<'_>,
) -> Result<(), AllocError> {
    match row.kind {
        "load" | "cause" | "kept" => put_of_files(alloc, text, given, row.rest, row.kind, b""),
        "same-fault" => put_comparison(alloc, text, given, row.rest),
        "hash-keys" => keys.put_compared(alloc, text),
        "join-deps" => put_joined(alloc, text, given, row.rest),
        "undeclared" => put_undeclared(alloc, text, given, row.rest),
        "discovered" => put_discovered(alloc, text, given, row.rest),
        "join-discovered" => put_joined_discoveries(alloc, text, given, row.rest),
        "dirtied" => put_dirtied(alloc, text, given, row.rest),
        "stale" => put_stale(alloc, text, given, row.rest),
        "join-present" => put_present(alloc, text, given, row.rest),
        _ => put_other(alloc, text, given, row),
    }
}

/// Appends the outcome of a row about a text, its words, or the graph of the files.
fn put_other(
    alloc: Global,
    text: &mut Vec<u8>,
    given: &Given,
    row: &Block<'_>,
) -> Result<(), AllocError> {
    if put_of_text(alloc, text, given, row)? || put_of_words(alloc, text, given, row)? {
        return Ok(());
    }
    let words = bytes_of(alloc, row.rest)?;
    put_of_files(alloc, text, given, "build.ninja", row.kind, &words)
}

/// Appends the outcome of a row about one text. Returns whether it has such a kind.
fn put_of_text(
    alloc: Global,
    text: &mut Vec<u8>,
    given: &Given,
    row: &Block<'_>,
) -> Result<bool, AllocError> {
    let subject = subject_of(alloc, given, row)?;
    let outcome = match row.kind {
        "lexed" => put_lexed(alloc, text, &subject, &row.text),
        "statements" => put_parsed(alloc, text, Grammar::Manifest, &subject),
        "entries" => put_parsed(alloc, text, Grammar::Dyndep, &subject),
        "number" | "version" | "quote" | "lossy" => put_meant(alloc, text, row.kind, &subject),
        "clean" => put_clean(alloc, text, &subject),
        "depfile" => put_depfile(alloc, text, &subject),
        "pieces" => put_pieces(alloc, text, &subject),
        "mark" => put_mark(alloc, text, &subject),
        "ctest" => put_ctest(alloc, text, &subject),
        "meson" => put_meson(alloc, text, &subject, given.bytes("targets")),
        _ => return Ok(false),
    };
    outcome?;
    Ok(true)
}

/// The text that a row is about: the rest of its line after its kind, or if that is empty the file
/// `text`.
fn subject_of(alloc: Global, given: &Given, row: &Block<'_>) -> Result<Vec<u8>, AllocError> {
    if row.rest.is_empty() {
        return Vec::from_slice(alloc, given.bytes("text"));
    }
    bytes_of(alloc, row.rest)
}

/// Appends the outcome of a row by its words or its steps. Returns whether it has such a kind.
fn put_of_words(
    alloc: Global,
    text: &mut Vec<u8>,
    given: &Given,
    row: &Block<'_>,
) -> Result<bool, AllocError> {
    let edges = given.bytes("edges");
    let outcome = match row.kind {
        "clean-into" | "quote-into" => {
            put_in_turn(alloc, text, row.kind, &words_of(alloc, row.rest)?)
        }
        "hash" => put_hash(alloc, text, row.rest),
        "glob" => put_matched(alloc, text, &words_of(alloc, row.rest)?),
        "names" => put_names(alloc, text, &words_of(alloc, row.rest)?),
        "chosen" => put_chosen(alloc, text, given, &words_of(alloc, row.rest)?),
        "test-texts" => put_test_texts(alloc, text, given, &words_of(alloc, row.rest)?),
        "mark-of" => put_mark_of(alloc, text, row.rest),
        "deps-log" | "cut-log" | "deps-of" => {
            put_of_log(alloc, text, given.bytes("log"), row.kind, row.rest)
        }
        "build-log" => put_build_log(alloc, text, given.bytes("log"), row.rest),
        "command-hash" => put_hash_of(alloc, text, given, row.rest),
        "shown" => put_shown_fault(alloc, text, row.rest),
        "reported" => put_reported(alloc, text, row.rest),
        "sources" => put_sources(alloc, text, &row.text),
        "collected" => put_collected(alloc, text, &row.text),
        "chain" => put_chain(alloc, text, row.rest),
        "numbered" | "walk" | "count" | "resume" | "resume-within" | "begin" | "grown" => {
            put_of_edges(alloc, text, edges, row.kind, row.rest)
        }
        _ => return Ok(false),
    };
    outcome?;
    Ok(true)
}

/// Appends the hash of a command, whose version comes before it, with the contents `contents` of its
/// response file.
fn put_hash_of(
    alloc: Global,
    text: &mut Vec<u8>,
    given: &Given,
    words: &str,
) -> Result<(), AllocError> {
    let (version, command) = first_of(words);
    let command = bytes_of(alloc, command)?;
    put_command_hash(alloc, text, version, &command, given.bytes("contents"))
}
