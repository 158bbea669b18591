//! The command on a theme: its cache, and what its `index.theme` says.

use crate::arguments::Wanted;
use crate::commands::{for_names, say_not_found, say_refused_for, with_bytes};
use crate::input::Source;
use crate::output::{Colour, Output, Status};
use crate::show;
use icon_cache::{Picked, Theme, LARGEST};
use std::ffi::{OsStr, OsString};

/// The largest length of an `index.theme`. That of hicolor, a long one, has 55 kB.
const LARGEST_INDEX: usize = 1_048_576;

pub fn pick(output: &mut Output, theme: &OsStr, names: &[OsString], wanted: &Wanted) -> Status {
    let cache = Source::cache_of(theme);
    let index = Source::index_of(theme);
    with_bytes(output, &cache, LARGEST, |output, _, cache| {
        let pick = |output: &mut Output, shown: &str, index: &[u8]| match parse(index) {
            Ok(theme) => pick_names(output, cache, &theme, names, wanted),
            Err(why) => say_refused_for(output, shown, &why),
        };
        with_bytes(output, &index, LARGEST_INDEX, pick)
    })
}

fn parse(index: &[u8]) -> Result<Theme, String> {
    if index.len() > LARGEST_INDEX {
        return Err("the file is longer than 1,048,576 bytes".to_owned());
    }
    Theme::parse(index).map_err(|error| error.to_string())
}

/// If the header of the cache is refused, there are no words, and each pick refuses
/// it again before it judges them.
fn pick_names(
    output: &mut Output,
    cache: &[u8],
    theme: &Theme,
    names: &[OsString],
    wanted: &Wanted,
) -> Status {
    let words = theme.words(cache).unwrap_or_default();
    for_names(output, names, |output, name| {
        pick_name(output, cache, name, &words, wanted)
    })
}

fn pick_name(
    output: &mut Output,
    cache: &[u8],
    name: &[u8],
    words: &[u32],
    wanted: &Wanted,
) -> Status {
    let shown = show::bytes(name);
    let (size, scale) = (wanted.size, wanted.scale);
    match icon_cache::pick(cache, name, size, scale, words) {
        Ok(Some(picked)) => say_picked(output, cache, &shown, &picked, wanted),
        Ok(None) => {
            let none_fits = output.paint(Colour::Yellow, "none fits");
            let why = format!("no image for size {size} at scale {scale}");
            output.line(&format!("{shown}: {none_fits}: {why}"));
            Status::Refused
        }
        Err(refusal) => say_not_found(output, &shown, &refusal),
    }
}

fn say_picked(
    output: &mut Output,
    cache: &[u8],
    shown: &str,
    picked: &Picked,
    wanted: &Wanted,
) -> Status {
    let word = output.paint(Colour::Green, "picked");
    let path = icon_cache::directory(cache, picked.image.directory.into());
    // A directory whose path is refused fits nothing.
    let directory = show::bytes(path.expect("the path has been judged"));
    let flags = show::flags(picked.image.flags, wanted.numbering);
    let place = show::offset(picked.place);
    output.line(&format!(
        "{shown}: {word}: {directory}, {flags}, image at {place}"
    ));
    Status::Good
}
