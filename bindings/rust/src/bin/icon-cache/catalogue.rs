//! The commands that write a cache from a catalogue, and list one as such.

use crate::arguments::Target;
use crate::commands::{say_check_refused, say_refused, say_refused_for, with_bytes, with_cache};
use crate::input::Source;
use crate::output::{Colour, Output, Status};
use crate::replace::replace;
use crate::show;
use icon_cache::{Catalogue, Field, Image, Numbering, Refusal, LARGEST};
use std::ffi::OsStr;

/// The largest prime that a cache may be written with as its bucket count.
const LARGEST_PRIME: usize = 4_093;

pub fn write(
    output: &mut Output,
    catalogue: &OsStr,
    buckets: Option<usize>,
    target: &Target,
) -> Status {
    let source = Source::file_of(catalogue);
    with_bytes(output, &source, LARGEST, |output, shown, bytes| {
        if bytes.len() > LARGEST {
            let why = "the file is longer than 16,777,216 bytes, and so would the cache be";
            return say_refused_for(output, shown, why);
        }
        let catalogue = match Catalogue::from_bytes(bytes) {
            Ok(catalogue) => catalogue,
            Err(refusal) => return say_catalogue_refused(output, shown, bytes, &refusal),
        };
        let file = match target {
            Target::Text(numbering) => return say_catalogue(output, &catalogue, *numbering),
            Target::File(file) => file,
        };
        let buckets = buckets.unwrap_or_else(|| usual_buckets(catalogue.icons.len()));
        match icon_cache::write(bytes, buckets) {
            Ok(cache) => put_cache(output, file, &cache, buckets),
            Err(refusal) => say_refused(output, shown, &refusal),
        }
    })
}

pub fn list(output: &mut Output, file: &OsStr, target: &Target) -> Status {
    with_cache(output, file, |output, shown, cache| {
        let bytes = match icon_cache::catalogue_of(cache) {
            Ok(bytes) => bytes,
            Err(refusal) => return say_cache_refused(output, shown, cache, &refusal),
        };
        match target {
            Target::Text(numbering) => {
                let catalogue = Catalogue::from_bytes(&bytes);
                let catalogue = catalogue.expect("what is listed is a catalogue");
                say_catalogue(output, &catalogue, *numbering)
            }
            Target::File(file) => {
                let checked = icon_cache::check(cache).expect("what is listed is accepted");
                let what = sizes(checked.icons, checked.directories);
                put(output, file, &bytes, &what)
            }
        }
    })
}

/// Whether it is a name or a path that runs off the end, only the check tells.
pub fn say_cache_refused(
    output: &mut Output,
    shown: &str,
    cache: &[u8],
    refusal: &Refusal,
) -> Status {
    if refusal.number != Refusal::CUT_OFF {
        return say_refused(output, shown, refusal);
    }
    let of_the_check = icon_cache::check(cache).expect_err("the check refuses it");
    say_check_refused(output, shown, &of_the_check)
}

/// The smallest prime that is not below the number of icons, so that chains are short.
fn usual_buckets(icons: usize) -> usize {
    let is_prime = |n: &usize| (2..*n).take_while(|d| d * d <= *n).all(|d| n % d != 0);
    let mut candidates = icons.max(2)..=LARGEST_PRIME;
    candidates.find(is_prime).unwrap_or(LARGEST_PRIME)
}

fn sizes_of(catalogue: &Catalogue) -> String {
    sizes(catalogue.icons.len(), catalogue.directories.len())
}

pub fn sizes(icons: usize, directories: usize) -> String {
    let icons = show::count(icons, "icon", "icons");
    let directories = show::count(directories, "directory", "directories");
    format!("{icons}, {directories}")
}

/// Replaces the file by a cache that was written.
pub fn put_cache(output: &mut Output, file: &OsStr, cache: &[u8], buckets: usize) -> Status {
    let checked = icon_cache::check(cache).expect("what is written is accepted");
    let sizes = sizes(checked.icons, checked.directories);
    let buckets = show::count(buckets, "bucket", "buckets");
    let longest = checked.longest;
    let what = format!("{sizes}, {buckets}, longest chain {longest}");
    put(output, file, cache, &what)
}

/// Replaces the file, and says what it holds now.
pub fn put(output: &mut Output, file: &OsStr, bytes: &[u8], what: &str) -> Status {
    let shown = show::bytes(file.as_encoded_bytes());
    match replace(file, bytes) {
        Ok(()) => {
            let written = output.paint(Colour::Green, "written");
            let length = show::count(bytes.len(), "byte", "bytes");
            output.line(&format!("{shown}: {written}: {what}, {length}"));
            Status::Good
        }
        Err(error) => {
            output.complain(&format!("{shown} can't be written: {error}"));
            Status::Failed
        }
    }
}

fn say_catalogue_refused(
    output: &mut Output,
    shown: &str,
    bytes: &[u8],
    refusal: &Refusal,
) -> Status {
    let why = match Field::at(bytes, refusal.place) {
        Some((field, width)) => {
            let is_cut = refusal.place + width > bytes.len();
            format!("{field} {}", what_is_wrong(field, is_cut, refusal.number))
        }
        None => refusal.to_string(),
    };
    let place = show::offset(refusal.place);
    say_refused_for(
        output,
        shown,
        &format!("rule {} at {place}: {why}", refusal.number),
    )
}

fn what_is_wrong(field: Field, is_cut: bool, number: u32) -> &'static str {
    match field {
        _ if number == Refusal::REPEATED_NAME => "was used before",
        Field::Extra => "belongs to nothing",
        _ if is_cut => "is cut off",
        Field::PathLength { .. } => "is not 1 to 1,023",
        Field::Path { .. } => {
            "holds a zero byte, or a piece of it, cut at its slashes, is empty, \".\" or \"..\""
        }
        Field::NameLength { .. } => "is 0",
        Field::Name { .. } => "holds a zero byte",
        Field::ImageCount { .. } => "is above 1,024",
        Field::Image { .. } => "names no directory, or its flags are above 15",
        Field::DirectoryCount | Field::IconCount => "is not allowed",
    }
}

fn say_catalogue(output: &mut Output, catalogue: &Catalogue, numbering: Numbering) -> Status {
    output.line(&sizes_of(catalogue));
    for (index, path) in catalogue.directories.iter().enumerate() {
        output.line(&format!("directory {index}: {}", show::bytes(path)));
    }
    for icon in &catalogue.icons {
        let images = show::count(icon.images.len(), "image", "images");
        output.line(&format!("{}: {images}", show::bytes(&icon.name)));
        for image in &icon.images {
            say_image(output, catalogue, image, numbering);
        }
        // Nobody would see the rest.
        if output.is_closed() {
            break;
        }
    }
    Status::Good
}

fn say_image(output: &mut Output, catalogue: &Catalogue, image: &Image, numbering: Numbering) {
    let directory = match catalogue.directories.get(usize::from(image.directory)) {
        Some(path) => show::bytes(path),
        None => "no directory".to_owned(),
    };
    let flags = show::flags(image.flags, numbering);
    let data = show::offset(image.data_offset as usize);
    output.line(&format!("  {directory}: {flags}, data offset {data}"));
}
