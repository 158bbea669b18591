//! Runs the tool `icon-cache` for tests.

use std::ffi::OsStr;
use std::fs;
use std::io::Write;
use std::path::PathBuf;
use std::process::{Child, Command, Output, Stdio};
use std::thread;

pub fn tool() -> Command {
    let mut tool = Command::new(env!("CARGO_BIN_EXE_icon-cache"));
    tool.stdin(Stdio::null()).env_remove("NO_COLOR");
    tool.current_dir(env!("CARGO_MANIFEST_DIR"));
    tool
}

/// Runs the tool with these arguments.
pub fn run<S: AsRef<OsStr>>(arguments: &[S]) -> Ran {
    Ran::of(tool().args(arguments).output().unwrap())
}

/// Runs the tool with these arguments and this standard input.
pub fn run_with_input(arguments: &[&str], input: &[u8]) -> Ran {
    let mut child = spawn(tool().args(arguments).stdin(Stdio::piped()));
    let mut stdin = child.stdin.take().unwrap();
    thread::scope(|scope| {
        // The tool may have read enough before all is written.
        scope.spawn(move || stdin.write_all(input));
        Ran::of(child.wait_with_output().unwrap())
    })
}

pub fn spawn(tool: &mut Command) -> Child {
    let tool = tool.stdout(Stdio::piped()).stderr(Stdio::piped());
    tool.spawn().unwrap()
}

/// What the tool printed, and its status.
pub struct Ran {
    pub output: String,
    pub errors: String,
    pub status: i32,
}

impl Ran {
    pub fn of(output: Output) -> Ran {
        Ran {
            output: String::from_utf8(output.stdout).unwrap(),
            errors: String::from_utf8(output.stderr).unwrap(),
            status: output.status.code().expect("no signal ended the tool"),
        }
    }

    /// It printed this and no errors.
    pub fn expect(&self, status: i32, output: &str) {
        assert_eq!(self.errors, "");
        assert_eq!(self.output, output);
        assert_eq!(self.status, status);
    }

    /// It printed no more than an error that has this in it.
    pub fn expect_error(&self, error: &str) {
        assert!(self.errors.contains(error), "{}", self.errors);
        assert_eq!(self.output, "");
        assert_eq!(self.status, 2);
    }
}

/// A folder of its own for one test.
pub struct Folder(pub PathBuf);

impl Folder {
    pub fn new(test: &str) -> Folder {
        let folder = PathBuf::from(env!("CARGO_TARGET_TMPDIR")).join(test);
        // What an earlier run has left.
        let _ = fs::remove_dir_all(&folder);
        fs::create_dir_all(&folder).unwrap();
        Folder(folder)
    }

    /// Makes a file and gives its path.
    pub fn file(&self, name: impl AsRef<OsStr>, bytes: &[u8]) -> PathBuf {
        let path = self.path(name);
        fs::write(&path, bytes).unwrap();
        path
    }

    pub fn path(&self, name: impl AsRef<OsStr>) -> PathBuf {
        self.0.join(name.as_ref())
    }
}

impl Drop for Folder {
    fn drop(&mut self) {
        let _ = fs::remove_dir_all(&self.0);
    }
}
