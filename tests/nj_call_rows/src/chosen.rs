//! Which tests a change of files reaches.

use nj_chosen::{ChangedPaths, Choice, ChosenTests, Link, Reason, choose};
use nj_names::{HashKeys, Names};
use nj_rows::Given;
use nj_test_lists::{ListFault, ctest_tests};
use nj_test_texts::{Style, tests_text};
use nj_tests::Test;
use std::alloc::{AllocError, Global};

/// Appends a line for each test that is chosen from the list by CTest in the file `tests`, with why.
/// The build directory is `/b`, the sources are in `/s`, and all outputs are in the file `outputs`.
/// Each word names a table, and the next one a path in it; `skip` skips tests of which too little is
/// known.
pub(crate) fn put_chosen(
    alloc: Global,
    text: &mut Vec<u8>,
    given: &Given,
    words: &[String],
) -> Result<(), AllocError> {
    let Some(tests) = tests_in(alloc, given)? else {
        return text.extend_from_slice(b"no list of tests\n");
    };
    put_choices(text, &tests, &chosen_by(alloc, given, words, &tests)?)
}

/// Appends the text of the chosen tests in the style that the first word names; of all tests if a
/// word is `all`.
pub(crate) fn put_test_texts(
    alloc: Global,
    text: &mut Vec<u8>,
    given: &Given,
    words: &[String],
) -> Result<(), AllocError> {
    let Some(tests) = tests_in(alloc, given)? else {
        return text.extend_from_slice(b"no list of tests\n");
    };
    let chosen = chosen_by(alloc, given, words, &tests)?;
    let style = match words.first() {
        Some(word) => style_named(word),
        None => Style::Names,
    };
    let written = tests_text(alloc, style, has_word(words, "all"), &tests, &chosen)?;
    text.extend_from_slice(&written)
}

/// The style with the given name.
fn style_named(word: &str) -> Style {
    match word {
        "reasons" => Style::Reasons,
        "objects" => Style::Objects,
        "ctest" => Style::CTest,
        "meson" => Style::Meson,
        _ => Style::Names,
    }
}

/// The tests of the list in the file `tests`; `None` if it is not a list by CTest.
fn tests_in(alloc: Global, given: &Given) -> Result<Option<Vec<Test>>, AllocError> {
    match ctest_tests(alloc, given.bytes("tests")) {
        Ok(tests) => Ok(Some(tests)),
        Err(ListFault::OutOfMemory) => Err(AllocError),
        Err(_) => Ok(None),
    }
}

/// The tests that are chosen, by the paths that words name.
fn chosen_by(
    alloc: Global,
    given: &Given,
    words: &[String],
    tests: &[Test],
) -> Result<ChosenTests, AllocError> {
    let paths = paths_of(alloc, given, words)?;
    let skips = has_word(words, "skip");
    choose(alloc, HashKeys::default(), b"/b", paths, skips, tests)
}

/// Whether a word is in a list.
fn has_word(words: &[String], sought: &str) -> bool {
    words.iter().any(|word| word.as_str() == sought)
}

/// The paths of a change.
fn paths_of(alloc: Global, given: &Given, words: &[String]) -> Result<ChangedPaths, AllocError> {
    let mut roots = Vec::new(alloc);
    roots.push(Vec::from_slice(alloc, b"/b")?)?;
    roots.push(Vec::from_slice(alloc, b"/s")?)?;
    let mut outputs = Names::new(alloc, HashKeys::default());
    let mut made = Names::new(alloc, HashKeys::default());
    for line in given.bytes("outputs").split(|byte| *byte == b'\n') {
        if !line.is_empty() {
            outputs.add(line)?;
            made.add(line)?;
        }
    }
    Ok(ChangedPaths {
        roots,
        outputs,
        made,
        affected: named(alloc, words, "affected")?,
        needing: named(alloc, words, "needing")?,
        changed: named(alloc, words, "changed")?,
        noticed: named(alloc, words, "noticed")?,
    })
}

/// The words that each follow a mention of the table.
fn named(alloc: Global, words: &[String], table: &str) -> Result<Names, AllocError> {
    let mut names = Names::new(alloc, HashKeys::default());
    for pair in words.windows(2) {
        if pair[0].as_str() == table {
            names.add(pair[1].as_bytes())?;
        }
    }
    Ok(names)
}

/// Appends a line for each test that is chosen.
fn put_choices(text: &mut Vec<u8>, tests: &[Test], chosen: &ChosenTests) -> Result<(), AllocError> {
    for (number, test) in tests.iter().enumerate() {
        if let Some(choice) = chosen.choice(number) {
            text.extend_from_slice(test.name.as_bytes())?;
            put_choice(text, choice)?;
        }
    }
    Ok(())
}

/// Appends why a test is chosen, and a line end.
fn put_choice(text: &mut Vec<u8>, choice: Choice<'_>) -> Result<(), AllocError> {
    match choice {
        Choice::Own(Reason::Named(link, path)) => {
            text.extend_from_slice(match link {
                Link::AffectedOutput => b": affected output ".as_slice(),
                Link::ChangedFile => b": changed file ",
                Link::Directory => b": directory ",
                Link::NeedsAffected => b": needs an affected one ",
            })?;
            text.extend_from_slice(path)?;
            text.extend_from_slice(b"\n")
        }
        Choice::Own(Reason::UnknownCommand) => text.extend_from_slice(b": unknown command\n"),
        Choice::Own(Reason::Unnamed) => text.extend_from_slice(b": names no output\n"),
        Choice::Follows => text.extend_from_slice(b": follows an affected test\n"),
        Choice::Needed => text.extend_from_slice(b": a chosen test needs it\n"),
    }
}
