//! Tests that CTest and Meson list.

use crate::printer::put_shown;
use nj_test_lists::{ListFault, ctest_tests, meson_tests};
use nj_tests::Test;
use std::alloc::{AllocError, Global};

/// Appends the tests of a list by CTest, or its fault.
pub(crate) fn put_ctest(alloc: Global, text: &mut Vec<u8>, list: &[u8]) -> Result<(), AllocError> {
    put_list(alloc, text, ctest_tests(alloc, list))
}

/// Appends the tests of a list by Meson, beside that of its targets in the build directory `/w/b`, or
/// the fault.
pub(crate) fn put_meson(
    alloc: Global,
    text: &mut Vec<u8>,
    list: &[u8],
    targets: &[u8],
) -> Result<(), AllocError> {
    put_list(alloc, text, meson_tests(alloc, "/w/b", list, targets))
}

/// Appends tests and their number, or the fault.
fn put_list(
    alloc: Global,
    text: &mut Vec<u8>,
    list: Result<Vec<Test>, ListFault>,
) -> Result<(), AllocError> {
    match list {
        Ok(tests) => {
            for test in &tests {
                put_test(text, test)?;
            }
            let count = tests.len();
            text.extend_from_slice(format!(in alloc; "{count} tests\n")?.as_bytes())
        }
        Err(ListFault::OutOfMemory) => Err(AllocError),
        Err(fault) => {
            put_shown(alloc, text, &fault)?;
            text.extend_from_slice(b"\n")
        }
    }
}

/// Appends what is known of a test.
fn put_test(text: &mut Vec<u8>, test: &Test) -> Result<(), AllocError> {
    put_line(text, "test ", &test.name)?;
    match &test.command {
        Some(words) => put_lines(text, "  word ", words)?,
        None => text.extend_from_slice(b"  unknown command\n")?,
    }
    put_lines(text, "  text ", &test.texts)?;
    if let Some(folder) = &test.folder {
        put_line(text, "  in ", folder)?;
    }
    put_lines(text, "  requires ", &test.required_fixtures)?;
    put_lines(text, "  sets up ", &test.set_up_fixtures)?;
    put_lines(text, "  cleans up ", &test.cleaned_fixtures)?;
    put_lines(text, "  after ", &test.predecessors)
}

/// Appends a line for each string, with words before it.
fn put_lines(text: &mut Vec<u8>, words: &str, strings: &[String]) -> Result<(), AllocError> {
    for string in strings {
        put_line(text, words, string)?;
    }
    Ok(())
}

/// Appends a line with words before a string.
fn put_line(text: &mut Vec<u8>, words: &str, string: &String) -> Result<(), AllocError> {
    text.extend_from_slice(words.as_bytes())?;
    text.extend_from_slice(string.as_bytes())?;
    text.extend_from_slice(b"\n")
}
