//! The tool `icon-cache`: checks caches, looks up icons, lists directories and
//! icons, picks images for a size, writes caches from catalogues, lists caches as
//! catalogues, repairs damaged caches and squeezes sound ones.

mod arguments;
mod catalogue;
mod chains;
mod commands;
mod help;
mod input;
mod notes;
mod output;
mod pick;
mod replace;
mod salvage;
mod show;
mod squeeze;

use arguments::{Misuse, Request};
use output::{Output, Status};
use std::env;
use std::process::ExitCode;

fn main() -> ExitCode {
    let mut output = Output::new();
    let status = match arguments::parse(env::args_os().skip(1)) {
        Ok(request) => answer(&mut output, request),
        Err(misuse) => complain(&mut output, &misuse),
    };
    output.finish(status).into()
}

fn answer(output: &mut Output, request: Request) -> Status {
    match request {
        Request::Help(text) => say(output, text),
        Request::Version => say(output, help::VERSION),
        Request::Check { files, manner } => commands::check(output, &files, &manner),
        Request::Lookup { file, names, shown } => commands::lookup(output, &file, &names, &shown),
        Request::Dirs(file) => commands::dirs(output, &file),
        Request::List { file, from, limit } => commands::list(output, &file, from, limit),
        Request::Pick {
            theme,
            names,
            wanted,
        } => pick::pick(output, &theme, &names, &wanted),
        Request::Write {
            catalogue,
            buckets,
            target,
        } => catalogue::write(output, &catalogue, buckets, &target),
        Request::Catalogue { file, target } => catalogue::list(output, &file, &target),
        Request::Salvage { file, out, product } => salvage::salvage(output, &file, &out, &product),
        Request::Squeeze { file, out } => squeeze::squeeze(output, &file, &out),
    }
}

fn say(output: &mut Output, text: &str) -> Status {
    output.line(text);
    Status::Good
}

fn complain(output: &mut Output, misuse: &Misuse) -> Status {
    output.complain(&misuse.message);
    let help = match misuse.command {
        Some(command) => format!("icon-cache {command} --help"),
        None => "icon-cache --help".to_owned(),
    };
    output.complain(&format!("see `{help}`"));
    Status::Failed
}
