//! The keys of hashes that sources of files draw.

use nj_disk::DiskFiles;
use nj_scope::{FileSource, HashKeys};
use std::alloc::{AllocError, Global};

/// The keys that two sources have drawn.
#[derive(Clone, Copy)]
pub(crate) struct DrawnKeys {
    one: HashKeys,
    other: HashKeys,
}

impl DrawnKeys {
    /// The keys of two sources of the files of the working directory.
    pub fn draw(rt: HostRuntime) -> Result<DrawnKeys, AllocError> {
        Ok(DrawnKeys {
            one: keys_of_source(rt)?,
            other: keys_of_source(rt)?,
        })
    }

    /// Appends whether a byte has the same hash twice by the keys of one source, and whether the
    /// keys of both sources hash it alike.
    pub fn put_compared(&self, alloc: Global, text: &mut Vec<u8>) -> Result<(), AllocError> {
        let one = self.one.hash_bytes(b"\x07") == self.one.hash_bytes(b"\x07");
        let both = self.one.hash_bytes(b"\x07") == self.other.hash_bytes(b"\x07");
        let line = format!(in alloc; "one source: {one}, two sources: {both}\n")?;
        text.extend_from_slice(line.as_bytes())
    }
}

/// The keys that a new source of the files of the working directory draws.
fn keys_of_source(rt: HostRuntime) -> Result<HashKeys, AllocError> {
    let source = DiskFiles::new(rt, rt.alloc(), None)?;
    Ok(source.hash_keys())
}
