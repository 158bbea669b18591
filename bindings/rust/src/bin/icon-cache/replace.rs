//! Replaces files as a whole.

use std::ffi::{OsStr, OsString};
use std::fs::{self, File, OpenOptions};
use std::io::{self, ErrorKind, Write};
use std::path::{Path, PathBuf};
use std::process;

/// Puts the bytes into a file that takes the place of the one at `path` only once they
/// are stored: whoever opens it finds the old bytes or the new, and after a failure the
/// old.
pub fn replace(path: &OsStr, bytes: &[u8]) -> io::Result<()> {
    let path = Path::new(path);
    let Some(name) = path.file_name() else {
        return Err(io::Error::other("it is no name of a file"));
    };
    let folder = match path.parent() {
        Some(folder) if !folder.as_os_str().is_empty() => folder,
        _ => Path::new("."),
    };
    let (beside, file) = create_beside(folder, name)?;
    let replaced = store(file, bytes).and_then(|()| fs::rename(&beside, path));
    if replaced.is_err() {
        // Nothing more can be done if it stays.
        let _ = fs::remove_file(&beside);
        return replaced;
    }
    // The new name is stored too, where the folder can be opened.
    if let Ok(folder) = File::open(folder) {
        let _ = folder.sync_all();
    }
    Ok(())
}

/// A file of a name that nothing has yet.
fn create_beside(folder: &Path, name: &OsStr) -> io::Result<(PathBuf, File)> {
    let mut number = 0;
    loop {
        let mut beside = OsString::from(".");
        beside.push(name);
        beside.push(format!(".{}-{number}", process::id()));
        let beside = folder.join(beside);
        let file = OpenOptions::new()
            .write(true)
            .create_new(true)
            .open(&beside);
        match file {
            Err(error) if error.kind() == ErrorKind::AlreadyExists => number += 1,
            file => return Ok((beside, file?)),
        }
    }
}

fn store(mut file: File, bytes: &[u8]) -> io::Result<()> {
    file.write_all(bytes)?;
    file.sync_all()
}
