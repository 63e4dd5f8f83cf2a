//! What is written, by many bytes at a time.

use std::{
    error, fmt,
    fs::{File, Metadata},
    io::{self, Write},
    os::unix::{fs::MetadataExt, io::AsFd},
};

use anyhow::Result;

use crate::streams;

/// With so many bytes that wait, an output is full.
const FULL: usize = 128 << 10;

/// An output that is written by many bytes at a time: those that wait are in `pending`.
pub struct Output {
    name: String,
    file: File,
    pub pending: Vec<u8>,
}

/// An output that cannot be written, with its name.
#[derive(Debug)]
pub struct Unwritten {
    name: String,
    error: io::Error,
}

impl Unwritten {
    /// Nobody reads it any more.
    pub fn is_closed(&self) -> bool {
        self.error.kind() == io::ErrorKind::BrokenPipe
    }
}

impl fmt::Display for Unwritten {
    fn fmt(&self, f: &mut fmt::Formatter<'_>) -> fmt::Result {
        write!(f, "{}: {}", self.name, self.error)
    }
}

impl error::Error for Unwritten {}

impl Output {
    pub fn new(name: impl Into<String>, file: File) -> Self {
        Output {
            name: name.into(),
            file,
            pending: Vec::new(),
        }
    }

    /// Standard output, without the buffer that Rust has for it, which ends at each line.
    pub fn standard() -> Result<Self> {
        let file = io::stdout().as_fd().try_clone_to_owned()?;
        let output = Output::new("standard output", file.into());
        match streams::is_output_closed() {
            true => Err(output.unwritten(io::Error::new(io::ErrorKind::NotFound, "is closed"))),
            false => Ok(output),
        }
    }

    pub fn error() -> Result<Self> {
        let file = io::stderr().as_fd().try_clone_to_owned()?;
        Ok(Output::new("standard error", file.into()))
    }

    pub fn is_full(&self) -> bool {
        self.pending.len() >= FULL
    }

    /// Writes what waits.
    pub fn spill(&mut self) -> Result<()> {
        let written = self.file.write_all(&self.pending);
        self.pending.clear();
        written.map_err(|error| self.unwritten(error))
    }

    /// Whether this is the file that another description is of.
    pub fn is_same(&self, other: &Metadata) -> Result<bool> {
        let own = self.file.metadata()?;
        Ok((own.dev(), own.ino()) == (other.dev(), other.ino()))
    }

    /// Makes sure that what was written is on the disk.
    pub fn sync(&self) -> Result<()> {
        self.file.sync_all().map_err(|error| self.unwritten(error))
    }

    /// An error of this output.
    pub fn unwritten(&self, error: io::Error) -> anyhow::Error {
        let name = self.name.clone();
        Unwritten { name, error }.into()
    }
}
