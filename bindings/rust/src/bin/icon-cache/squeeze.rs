//! The command that squeezes dead bytes out of a cache.

use crate::catalogue::{put_cache, say_cache_refused};
use crate::commands::with_cache;
use crate::output::{Colour, Output, Status};
use crate::show;
use icon_cache::check;
use std::ffi::OsStr;

pub fn squeeze(output: &mut Output, file: &OsStr, out: &OsStr) -> Status {
    with_cache(
        output,
        file,
        |output, shown, cache| match icon_cache::squeeze(cache) {
            Ok(squeezed) => {
                let status = put_cache(output, out, &squeezed, buckets(&squeezed));
                if status == Status::Good {
                    say_dropped(output, shown, cache, &squeezed);
                }
                status
            }
            Err(refusal) => say_cache_refused(output, shown, cache, &refusal),
        },
    )
}

/// The hash of a squeezed cache follows its header.
fn buckets(squeezed: &[u8]) -> usize {
    squeezed[12..16]
        .iter()
        .fold(0, |number, byte| number << 8 | usize::from(*byte))
}

/// Where parts of the cache overlap, it may have become longer.
fn say_dropped(output: &mut Output, shown: &str, cache: &[u8], squeezed: &[u8]) {
    let icons = |cache| check(cache).expect("both are accepted").icons;
    let repeated = icons(cache) - icons(squeezed);
    let (before, after) = (cache.len(), squeezed.len());
    let change = if after > before {
        format!("{} more", show::count(after - before, "byte", "bytes"))
    } else {
        format!("{} dropped", show::count(before - after, "byte", "bytes"))
    };
    let repeated = show::count(repeated, "icon", "icons");
    let before = show::count(before, "byte", "bytes");
    let squeezed = output.paint(Colour::Green, "squeezed");
    output.line(&format!(
        "{shown}: {squeezed}: {before} before, {after} after, {change}, {repeated} dropped whose name was used before"
    ));
}
