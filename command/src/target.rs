//! Where a rewritten text goes: to standard output, or beside a file's place and then there.

use std::{
    fs::{self, File, Metadata, OpenOptions, Permissions},
    io,
    os::unix::{
        fs::{MetadataExt, PermissionsExt},
        io::AsRawFd,
    },
    path::{Path, PathBuf},
    process,
    sync::{Arc, Mutex},
    thread,
};

use anyhow::{Context, Result, bail};
use nix::unistd::{Gid, Uid, fchown};
use signal_hook::{
    consts::{SIGHUP, SIGINT, SIGTERM},
    iterator::Signals,
    low_level::emulate_default_handler,
};
use tempfile::{Builder, TempPath};

use crate::output::Output;

pub enum Target {
    Standard(Output),
    /// No regular file, such as a pipe with a name: it cannot be moved to its place.
    Direct(Output),
    Beside {
        output: Output,
        part: TempPath,
        path: PathBuf,
    },
}

impl Target {
    /// Standard output for none and `-`; else a file.
    pub fn open(path: Option<&Path>) -> Result<Self> {
        match path {
            Some(path) if path != Path::new("-") => Target::of_file(path).with_context(|| path.display().to_string()),
            _ => Output::standard().map(Target::Standard),
        }
    }

    fn of_file(path: &Path) -> Result<Self> {
        let ending = path.extension().unwrap_or_default();
        if ending == "gz" || ending == "bgz" {
            bail!("what is written is plain text: leave -o out, and pipe it through gzip or bgzip");
        }
        match fs::metadata(path) {
            Ok(old) if old.is_dir() => bail!("is a folder"),
            Ok(old) if !old.is_file() => {
                let file = OpenOptions::new().write(true).open(path)?;
                Ok(Target::Direct(Output::new(path.display().to_string(), file)))
            }
            Ok(old) => Target::beside(path, Some(&old)),
            Err(error) if error.kind() == io::ErrorKind::NotFound => Target::beside(path, None),
            Err(error) => Err(error.into()),
        }
    }

    /// A new file in the folder of the one that it will replace, which nobody else may read before it has its permissions. A link stays,
    /// and what it leads to is replaced.
    fn beside(path: &Path, old: Option<&Metadata>) -> Result<Self> {
        let name = path.display().to_string();
        let path = behind_links(path)?;
        let folder = match path.parent() {
            Some(folder) if folder != Path::new("") => folder,
            _ => Path::new("."),
        };
        let (file, part) = made_in(folder)?;
        match old {
            Some(old) => take_after(&file, old)?,
            None => file.set_permissions(Permissions::from_mode(0o666 & !umask()))?,
        }
        let output = Output::new(name, file);
        Ok(Target::Beside { output, part, path })
    }

    /// Refuses to add to the file that is read, which would have no end.
    pub fn refuse_source(&self, source: &Metadata) -> Result<()> {
        match self {
            Target::Standard(output) if source.is_file() && output.is_same(source)? => {
                bail!("is the input and the output: use -o")
            }
            _ => Ok(()),
        }
    }

    /// Whether the text goes where a progress bar would stand.
    pub fn is_terminal(&self) -> bool {
        matches!(self, Target::Standard(_)) && console::user_attended()
    }

    pub fn output(&mut self) -> &mut Output {
        match self {
            Target::Standard(output) | Target::Direct(output) | Target::Beside { output, .. } => output,
        }
    }

    /// Writes what waits, and moves the file to its place. Without this call it is removed.
    pub fn finish(mut self) -> Result<()> {
        self.output().spill()?;
        match self {
            Target::Beside { output, part, path } => {
                output.sync()?;
                part.persist(path).map_err(|error| output.unwritten(error.error))
            }
            _ => Ok(()),
        }
    }
}

/// Where links lead, whether or not there is a file.
fn behind_links(path: &Path) -> Result<PathBuf> {
    // As many as the kernel follows.
    const MOST: usize = 40;
    let mut path = path.to_owned();
    for _ in 0..MOST {
        match fs::read_link(&path) {
            Ok(to) => path = path.parent().unwrap_or(Path::new("")).join(to),
            Err(_) => return Ok(path),
        }
    }
    bail!("leads from link to link without end")
}

/// Gives a file the owner, the group and the permissions of another. Only root gives files away, and others give them to their own groups
/// alone: where the group is another, it may do no more than all may.
fn take_after(file: &File, old: &Metadata) -> Result<()> {
    let (owner, group) = (Uid::from_raw(old.uid()), Gid::from_raw(old.gid()));
    let has_group = fchown(file.as_raw_fd(), Some(owner), Some(group))
        .or_else(|_| fchown(file.as_raw_fd(), None, Some(group)))
        .is_ok();
    let mode = old.mode() & 0o777;
    let mode = if has_group {
        mode
    } else {
        mode & 0o707 | (mode & 0o007) << 3
    };
    file.set_permissions(Permissions::from_mode(mode))?;
    Ok(())
}

/// A new file in a folder. From now on a signal that ends the command removes it first, or waits until it is there to be removed.
fn made_in(folder: &Path) -> Result<(File, TempPath)> {
    let removed_first = Arc::new(Mutex::new(None));
    remove_on_signal(Arc::clone(&removed_first))?;
    let mut path = removed_first.lock().expect("no thread panics with it");
    let part = Builder::new().prefix(".gff3.").suffix(".part").tempfile_in(folder)?;
    *path = Some(part.path().to_owned());
    Ok(part.into_parts())
}

/// A signal that is ignored, as under nohup, stays so.
fn remove_on_signal(part: Arc<Mutex<Option<PathBuf>>>) -> Result<()> {
    let ignored = own_status("SigIgn:", 16).unwrap_or(0);
    let ending = [SIGHUP, SIGINT, SIGTERM].into_iter();
    let mut signals = Signals::new(ending.filter(|signal| ignored >> (signal - 1) & 1 == 0))?;
    thread::Builder::new().spawn(move || {
        for signal in signals.forever() {
            if let Ok(Some(part)) = part.lock().map(|mut part| part.take()) {
                // It may be moved to its place already.
                let _ = fs::remove_file(part);
            }
            end_by(signal);
        }
    })?;
    Ok(())
}

/// Ends the command by a signal. The first process of a container is ended by none that it does not handle.
fn end_by(signal: i32) {
    if process::id() == 1 {
        process::exit(128 + signal);
    }
    let _ = emulate_default_handler(signal);
}

/// What a new file is kept from.
fn umask() -> u32 {
    own_status("Umask:", 8).map_or(0o022, |mask| mask as u32)
}

/// A number that Linux says of this process.
fn own_status(name: &str, radix: u32) -> Option<u64> {
    let status = fs::read_to_string("/proc/self/status").ok()?;
    let number = status.lines().find_map(|line| line.strip_prefix(name))?;
    u64::from_str_radix(number.trim(), radix).ok()
}
