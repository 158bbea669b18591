//! Where a cache, a catalogue and the description of a theme come from.

use crate::show;
use std::ffi::OsStr;
use std::fs::File;
use std::io::{self, Read};
use std::os::fd::AsFd;
use std::path::{Path, PathBuf};

const CACHE: &str = "icon-theme.cache";
const INDEX: &str = "index.theme";

pub enum Source {
    StandardInput,
    File(PathBuf),
}

impl Source {
    pub fn of(operand: &OsStr) -> Source {
        if is_standard_input(operand) {
            return Source::StandardInput;
        }
        let path = PathBuf::from(operand);
        if path.is_dir() {
            Source::File(path.join(CACHE))
        } else {
            Source::File(path)
        }
    }

    /// A file that is no cache: a directory stands for none in it.
    pub fn file_of(operand: &OsStr) -> Source {
        if is_standard_input(operand) {
            return Source::StandardInput;
        }
        Source::File(PathBuf::from(operand))
    }

    /// The cache in the folder of a theme.
    pub fn cache_of(theme: &OsStr) -> Source {
        Source::File(Path::new(theme).join(CACHE))
    }

    /// The description in the folder of a theme.
    pub fn index_of(theme: &OsStr) -> Source {
        Source::File(Path::new(theme).join(INDEX))
    }

    /// The bytes, or the first of them where there are more than the largest length.
    pub fn read(&self, largest: usize) -> io::Result<Vec<u8>> {
        match self {
            Source::StandardInput => read_limited(standard_input()?, largest),
            Source::File(path) => read_limited(File::open(path)?, largest),
        }
    }

    pub fn shown(&self) -> String {
        match self {
            Source::StandardInput => "standard input".to_owned(),
            Source::File(path) => show::bytes(path.as_os_str().as_encoded_bytes()),
        }
    }
}

pub fn is_standard_input(operand: &OsStr) -> bool {
    operand == "-"
}

/// `io::stdin` would read ahead of what it is asked for.
fn standard_input() -> io::Result<File> {
    let descriptor = io::stdin().as_fd().try_clone_to_owned()?;
    Ok(File::from(descriptor))
}

/// One byte above the limit is enough to refuse the file.
fn read_limited(file: File, largest: usize) -> io::Result<Vec<u8>> {
    let mut bytes = Vec::new();
    file.take(largest as u64 + 1).read_to_end(&mut bytes)?;
    Ok(bytes)
}
