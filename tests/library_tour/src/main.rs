//! Calls each function that docs/LIBRARY.md shows, over the project of library_example or over short
//! texts, and writes their results.
#![tactic(auto)]

mod snippets;

use ninja::{DiskFiles, Error, FileList, Graph, Loaded, Mark, WriteSink, write_whole};
use snippets::changes::append_affected;
use snippets::declared::{append_build_folders, append_pools, append_rules};
use snippets::dyndeps::load_joined;
use snippets::edges::{append_edges, append_sources};
use snippets::errors::{is_of_words, log_line};
use snippets::lines::append_line;
use snippets::loading::{load_folder, load_text};
use snippets::sources::FolderFiles;
use snippets::targets::{append_defaults, append_target};
use snippets::variables::{append_assigned, append_commands, append_whole_commands};
use snippets::walks::{append_order, mark_text, write_page};
use snippets::writers::write_lists;
use std::alloc::{AllocError, Global};
use std::io;
use std::process::ExitCode;

fn main(rt: HostRuntime) -> io::Result<ExitCode> {
    match run(rt) {
        Ok(()) => Ok(ExitCode::SUCCESS),
        Err(error) => {
            eprintln!(rt; "{error}")?;
            Ok(ExitCode::FAILURE)
        }
    }
}

/// Writes the results of all functions.
fn run(rt: HostRuntime) -> Result<(), Error> {
    show_files(rt)?;
    show_joined_files(rt)?;
    show_faults(rt)
}

/// Writes a text to standard output.
fn write_text(rt: HostRuntime, text: &[u8]) -> Result<(), Error> {
    write_whole(&mut WriteSink::new(rt.stdout()), text)?;
    Ok(())
}

/// Shows the files of the working directory.
fn show_files(rt: HostRuntime) -> Result<(), Error> {
    let loaded = load_folder(rt)?;
    show_graph(rt, loaded.graph())
}

/// Shows a graph.
fn show_graph(rt: HostRuntime, graph: &Graph) -> Result<(), Error> {
    show_facts(rt, graph)?;
    show_targets(rt, &graph.targets(rt.alloc(), &["hello"])?)
}

/// Writes the contents of a graph, and the declarations of its files.
fn show_facts(rt: HostRuntime, graph: &Graph) -> Result<(), Error> {
    let mut text = Vec::new(rt.alloc());
    append_facts(rt.alloc(), &mut text, graph)?;
    write_text(rt, &text)
}

/// Appends the contents of a graph, and the declarations of its files.
fn append_facts(alloc: Global, text: &mut Vec<u8>, graph: &Graph) -> Result<(), Error> {
    append_edges_and_targets(alloc, text, graph)?;
    append_variables(alloc, text, graph)?;
    append_declared(alloc, text, graph)?;
    Ok(())
}

/// Appends the edges, files and targets of a graph.
fn append_edges_and_targets(alloc: Global, text: &mut Vec<u8>, graph: &Graph) -> Result<(), Error> {
    append_line(text, &[b"== edges and files"])?;
    append_sources(text, graph)?;
    append_edges(alloc, text, graph)?;
    append_line(text, &[b"== targets"])?;
    append_target(alloc, text, graph, b"./hello.c^")?;
    append_defaults(text, graph)?;
    append_line(text, &[b"== what a change reaches"])?;
    append_affected(alloc, text, graph, b"./greet.h")
}

/// Appends the values of variables for the edges of a graph.
fn append_variables(alloc: Global, text: &mut Vec<u8>, graph: &Graph) -> Result<(), AllocError> {
    append_line(text, &[b"== variables"])?;
    append_commands(text, graph)?;
    append_whole_commands(alloc, text, graph)?;
    append_assigned(text, graph)
}

/// Appends the declarations of a graph's files.
fn append_declared(alloc: Global, text: &mut Vec<u8>, graph: &Graph) -> Result<(), AllocError> {
    append_line(text, &[b"== rules, pools and scopes"])?;
    append_rules(alloc, text, graph)?;
    append_pools(text, graph)?;
    append_build_folders(text, graph)
}

/// Writes the order of the edges that targets need, their commands page by page, and lists.
fn show_targets(rt: HostRuntime, targets: &FileList<'_>) -> Result<(), Error> {
    show_order(rt, targets)?;
    show_page(rt, targets, "start")?;
    show_page(rt, targets, "0.1")?;
    write_text(rt, b"== lists\n")?;
    write_lists(rt.alloc(), targets, &mut WriteSink::new(rt.stdout()))?;
    Ok(())
}

/// Writes the order of the edges that targets need.
fn show_order(rt: HostRuntime, targets: &FileList<'_>) -> Result<(), Error> {
    write_text(rt, b"== a walk\n")?;
    let mut text = Vec::new(rt.alloc());
    append_order(rt.alloc(), &mut text, targets)?;
    write_text(rt, &text)
}

/// Writes a page of commands, and the mark of the next page.
fn show_page(rt: HostRuntime, targets: &FileList<'_>, mark: &str) -> Result<(), Error> {
    let mark = Mark::read(rt.alloc(), mark)?;
    let next = write_page(rt.alloc(), targets, &mark, &mut WriteSink::new(rt.stdout()))?;
    show_mark(rt, next.as_ref())
}

/// Writes the mark of the next page.
fn show_mark(rt: HostRuntime, next: Option<&Mark>) -> Result<(), Error> {
    let next = mark_text(rt.alloc(), next)?;
    let line = format!(in rt.alloc(); "next mark: {next}\n")?;
    write_text(rt, line.as_bytes())
}

/// Writes the outputs that a change of `greet.h` affects once dyndep files are joined.
fn show_joined_files(rt: HostRuntime) -> Result<(), Error> {
    let joined = load_joined_folder(rt)?;
    show_joined_graph(rt, joined.graph())
}

/// The files of the working directory alone, and the discoveries of their dyndep files.
fn load_joined_folder(rt: HostRuntime) -> Result<Loaded, Error> {
    let source = DiskFiles::new(rt, rt.alloc(), None)?;
    let mut files = FolderFiles { source };
    load_joined(rt.alloc(), &mut files, "build.ninja")
}

/// Writes the same for a graph to which they were joined.
fn show_joined_graph(rt: HostRuntime, graph: &Graph) -> Result<(), Error> {
    write_text(rt, b"== with dyndep files\n")?;
    let mut text = Vec::new(rt.alloc());
    append_affected(rt.alloc(), &mut text, graph, b"greet.h")?;
    write_text(rt, &text)
}

/// Writes the faults of two manifests, and of an argument.
fn show_faults(rt: HostRuntime) -> Result<(), Error> {
    let mut text = Vec::new(rt.alloc());
    append_faults(rt.alloc(), &mut text)?;
    write_text(rt, &text)
}

/// Appends the faults, a line each.
fn append_faults(alloc: Global, text: &mut Vec<u8>) -> Result<(), AllocError> {
    append_line(text, &[b"== errors"])?;
    append_fault(alloc, text, b"rule cc\n  depth = 1\n", b"a")?;
    append_fault(alloc, text, b"build a: phony b\nbuild b: phony a\n", b"a")?;
    append_fault(alloc, text, b"build a: phony\n", b"b")
}

/// Appends the line of the error of a manifest, or of an argument that does not name a target of
/// its graph.
fn append_fault(
    alloc: Global,
    text: &mut Vec<u8>,
    manifest: &[u8],
    word: &[u8],
) -> Result<(), AllocError> {
    match ask(alloc, manifest, word) {
        Ok(()) => Ok(()),
        Err(error) => append_error(alloc, text, &error),
    }
}

/// Appends the source of an error, and its line.
fn append_error(alloc: Global, text: &mut Vec<u8>, error: &Error) -> Result<(), AllocError> {
    let line = log_line(alloc, error)?;
    append_line(text, &[blamed(error), &line])
}

/// The source of an error.
fn blamed(error: &Error) -> &'static [u8] {
    if is_of_words(error) {
        b"of words: "
    } else {
        b"of files: "
    }
}

/// Picks the target that an argument denotes in the graph of a manifest.
fn ask(alloc: Global, manifest: &[u8], word: &[u8]) -> Result<(), Error> {
    let loaded = load_text(alloc, manifest)?;
    ask_graph(alloc, loaded.graph(), word)
}

/// Picks the target in a graph.
fn ask_graph(alloc: Global, graph: &Graph, word: &[u8]) -> Result<(), Error> {
    graph.target(alloc, word)?;
    Ok(())
}
