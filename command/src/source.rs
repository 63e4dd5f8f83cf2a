//! Where a text comes from, and how that is called in what is said about it.

use std::{
    fmt,
    fs::File,
    io,
    os::unix::{ffi::OsStrExt, io::AsFd},
    path::{Path, PathBuf},
};

use crate::{shown::shown, streams};

#[derive(Clone, PartialEq, Eq)]
pub enum Source {
    Standard,
    File(PathBuf),
}

impl Source {
    pub fn new(path: &Path) -> Self {
        match path.as_os_str().as_bytes() {
            b"-" => Source::Standard,
            _ => Source::File(path.to_owned()),
        }
    }

    /// The sources that are named; standard input where none is.
    pub fn all(paths: &[PathBuf]) -> Vec<Self> {
        match paths {
            [] => vec![Source::Standard],
            _ => paths.iter().map(|path| Source::new(path)).collect(),
        }
    }

    /// The name as bytes: that of a file need not be UTF-8.
    pub fn name(&self) -> &[u8] {
        match self {
            Source::Standard => b"<stdin>",
            Source::File(path) => path.as_os_str().as_bytes(),
        }
    }

    /// The name as a text, for a machine that reads nothing but texts.
    pub fn text(&self) -> String {
        String::from_utf8_lossy(self.name()).into_owned()
    }

    /// The name for the eyes of a person: as it is, but for what a terminal would obey.
    pub fn shown_name(&self) -> Vec<u8> {
        let is_plain = |byte: &u8| !byte.is_ascii_control();
        match self.name().iter().all(is_plain) {
            true => self.name().to_owned(),
            false => shown(self.name()).into_bytes(),
        }
    }

    pub fn open(&self) -> io::Result<File> {
        match self {
            Source::Standard if streams::is_input_closed() => Err(io::Error::new(io::ErrorKind::NotFound, "is closed")),
            Source::Standard => Ok(File::from(io::stdin().as_fd().try_clone_to_owned()?)),
            Source::File(path) => File::open(path),
        }
    }

    /// Whether it is a person who is to type.
    pub fn is_typed(&self) -> bool {
        *self == Source::Standard && atty::is(atty::Stream::Stdin)
    }
}

impl fmt::Display for Source {
    fn fmt(&self, f: &mut fmt::Formatter<'_>) -> fmt::Result {
        String::from_utf8_lossy(&self.shown_name()).fmt(f)
    }
}
