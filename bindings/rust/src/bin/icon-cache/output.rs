//! What the tool prints, and its exit status.

use std::env;
use std::io::{self, BufWriter, ErrorKind, IsTerminal, StdoutLock, Write};
use std::process::ExitCode;

/// The exit status; of several, the worst counts.
#[derive(Clone, Copy, Debug, PartialEq, Eq, PartialOrd, Ord)]
pub enum Status {
    /// Accepted, found, listed, picked or written.
    Good = 0,
    /// Refused or absent, or no image fits.
    Refused = 1,
    /// A wrong command line, or a file that can't be read or written.
    Failed = 2,
}

impl From<Status> for ExitCode {
    fn from(status: Status) -> ExitCode {
        ExitCode::from(status as u8)
    }
}

#[derive(Clone, Copy)]
pub enum Colour {
    Green,
    Red,
    Yellow,
}

impl Colour {
    /// The number of the colour in an escape sequence.
    fn code(self) -> u8 {
        match self {
            Colour::Red => 31,
            Colour::Green => 32,
            Colour::Yellow => 33,
        }
    }
}

pub struct Output {
    stream: BufWriter<StdoutLock<'static>>,
    colours: bool,
    /// The first error of the stream; nothing is written after it.
    error: Option<io::Error>,
}

impl Output {
    pub fn new() -> Output {
        let stream = io::stdout().lock();
        Output {
            colours: stream.is_terminal() && colours_wanted(),
            stream: BufWriter::new(stream),
            error: None,
        }
    }

    pub fn line(&mut self, line: &str) {
        if self.error.is_none() {
            self.error = writeln!(self.stream, "{line}").err();
        }
    }

    /// The word in this colour, or as it is where there are no colours.
    pub fn paint(&self, colour: Colour, word: &str) -> String {
        if self.colours {
            format!("\x1b[{}m{word}\x1b[0m", colour.code())
        } else {
            word.to_owned()
        }
    }

    /// Writes to standard error, after the lines before. If that is closed,
    /// there is nobody left to tell.
    pub fn complain(&mut self, message: &str) {
        self.flush();
        let _ = writeln!(io::stderr(), "icon-cache: {message}");
    }

    /// Shows the lines so far; the next may take a while.
    pub fn flush(&mut self) {
        if self.error.is_none() {
            self.error = self.stream.flush().err();
        }
    }

    /// Whether the stream has failed, so that no further line is written.
    pub fn is_closed(&self) -> bool {
        self.error.is_some()
    }

    /// The exit status after all is written. A reader that has seen enough may
    /// close the pipe; what was found out still counts.
    pub fn finish(mut self, status: Status) -> Status {
        self.flush();
        match self.error.take() {
            Some(error) if error.kind() != ErrorKind::BrokenPipe => {
                self.complain(&format!("the output can't be written: {error}"));
                Status::Failed
            }
            _ => status,
        }
    }
}

/// NO_COLOR counts with any value but the empty one (no-color.org).
fn colours_wanted() -> bool {
    let set = |variable| env::var_os(variable).is_some_and(|value| !value.is_empty());
    let dumb = env::var_os("TERM").is_some_and(|terminal| terminal == "dumb");
    !set("NO_COLOR") && !dumb
}
