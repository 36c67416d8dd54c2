//! The settings of rows: files, failures and limits.

use crate::blocks::Block;
use crate::log_parts::log_of;
use crate::repeats::{Repeat, with_number};
use nj_scope::MemoryFiles;
use std::alloc::{AllocError, Global};

/// The line of a row that stands for the text of the file `wanted`.
const WANTED: &[u8] = b"<wanted>\n";

/// A given file.
#[derive(Drop)]
pub struct GivenFile {
    /// Its path, by which runs name it.
    pub name: String,
    /// Its contents.
    pub text: Vec<u8>,
}

/// The settings before a row: files for all rows of a section, the others for the next row alone.
#[derive(Drop)]
pub struct Given {
    /// The files; of several with the same name, the last is used.
    pub files: Vec<GivenFile>,
    /// The reading that fails, counted from 1; 0: none does.
    pub failing: u64,
    /// The same for the files that builds write, where they have a source of their own.
    pub failing_built: u64,
    /// Standard input.
    pub input: Vec<u8>,
    /// The path of the working directory; `None`: `/w`.
    pub folder: Option<String>,
    /// How many bytes standard output accepts; `None`: all.
    pub output: Option<usize>,
    /// How many bytes standard error accepts; `None`: all.
    pub error: Option<usize>,
}

impl Given {
    /// Nothing is given.
    pub fn new(alloc: Global) -> Given {
        Given {
            files: Vec::new(alloc),
            failing: 0,
            failing_built: 0,
            input: Vec::new(alloc),
            folder: None,
            output: None,
            error: None,
        }
    }

    /// Reads a block if it is a setting. Returns whether it is.
    pub fn read(&mut self, alloc: Global, block: &Block<'_>) -> Result<bool, AllocError> {
        let text = block.text.as_slice();
        match block.kind {
            "==" => self.files.clear(),
            "file" => self.add(alloc, block.rest, text)?,
            "unended" => self.add(alloc, block.rest, without_end(text))?,
            "repeat" => self.repeat(alloc, block)?,
            "log" => self.add_log(alloc, block)?,
            "input" => self.input.extend_from_slice(text)?,
            "unended-input" => self.input.extend_from_slice(without_end(text))?,
            "folder" => self.folder = Some(String::from_str(alloc, block.rest)?),
            "reading-fails" => self.failing = block.rest.parse().unwrap_or(0),
            "built-reading-fails" => self.failing_built = block.rest.parse().unwrap_or(0),
            "output-takes" => self.output = block.rest.parse().ok(),
            "error-takes" => self.error = block.rest.parse().ok(),
            _ => return Ok(false),
        }
        Ok(true)
    }

    /// Forgets the settings for one row.
    pub fn end_row(&mut self) {
        self.failing = 0;
        self.failing_built = 0;
        self.input.clear();
        self.folder = None;
        self.output = None;
        self.error = None;
    }

    /// Adds a file, in place of a file with the same name.
    fn add(&mut self, alloc: Global, name: &str, text: &[u8]) -> Result<(), AllocError> {
        let name = String::from_str(alloc, name)?;
        let text = Vec::from_slice(alloc, text)?;
        self.files.push(GivenFile { name, text })?;
        Ok(())
    }

    /// Adds the deps log of the parts in the text of a block.
    fn add_log(&mut self, alloc: Global, block: &Block<'_>) -> Result<(), AllocError> {
        let parts = str::from_utf8(&block.text).unwrap_or("text not UTF-8");
        self.add(alloc, block.rest, &log_of(alloc, parts)?)
    }

    /// Appends a text to the file with the given name, which is empty at first.
    fn append(&mut self, alloc: Global, name: &str, text: &[u8]) -> Result<(), AllocError> {
        let mut files = self.files.iter_mut().rev();
        match files.find(|file| file.name.as_str() == name) {
            Some(file) => file.text.extend_from_slice(text),
            None => self.add(alloc, name, text),
        }
    }

    /// Expands a block once per number, appending to the file that it names for that number.
    fn repeat(&mut self, alloc: Global, block: &Block<'_>) -> Result<(), AllocError> {
        let repeat = Repeat::read(block.rest);
        let text = str::from_utf8(&block.text).unwrap_or("not UTF-8");
        for step in 0..repeat.count() {
            let number = repeat.number(step);
            let name = with_number(alloc, repeat.name, number)?;
            let text = with_number(alloc, text, number)?;
            self.append(alloc, name.as_str(), text.as_bytes())?;
        }
        Ok(())
    }

    /// The given files.
    pub fn source(&self, alloc: Global) -> Result<MemoryFiles, AllocError> {
        self.failing_source(alloc, self.failing)
    }

    /// The given files, as a source of files that builds write.
    pub fn built(&self, alloc: Global) -> Result<MemoryFiles, AllocError> {
        self.failing_source(alloc, self.failing_built)
    }

    /// The files, where the reading with the given number fails.
    fn failing_source(&self, alloc: Global, failing: u64) -> Result<MemoryFiles, AllocError> {
        let mut source = MemoryFiles::new(alloc);
        for file in &self.files {
            source.add(file.name.as_str(), &file.text)?;
        }
        source.fail_at(failing);
        Ok(source)
    }

    /// The path of the working directory.
    pub fn folder(&self) -> &[u8] {
        match &self.folder {
            Some(folder) => folder.as_bytes(),
            None => b"/w",
        }
    }

    /// The text of the last file with the given name; empty without such a file.
    pub fn bytes(&self, name: &str) -> &[u8] {
        let mut files = self.files.iter().rev();
        match files.find(|file| file.name.as_str() == name) {
            Some(file) => file.text.as_slice(),
            None => b"",
        }
    }

    /// The text that is wanted of a row. Where its first line is `<wanted>`, the text of the file
    /// `wanted` comes in place of that.
    pub fn wanted(&self, alloc: Global, row: &Block<'_>) -> Result<Vec<u8>, AllocError> {
        let (first, rest) = match row.text.strip_prefix(WANTED) {
            Some(rest) => (self.bytes("wanted"), rest),
            None => (b"".as_slice(), row.text.as_slice()),
        };
        let mut text = Vec::from_slice(alloc, first)?;
        text.extend_from_slice(rest)?;
        Ok(text)
    }
}

/// A text without the end of its last line.
fn without_end(text: &[u8]) -> &[u8] {
    text.strip_suffix(b"\n").unwrap_or(text)
}
