//! The command that saves what is sound of a cache, and how its report is shown.

use crate::arguments::Product;
use crate::catalogue::{put, put_cache, sizes};
use crate::commands::{say_refused, with_cache};
use crate::output::{Colour, Output, Status};
use crate::show;
use icon_cache::{About, Record, Refusal, Row, Salvaged, MOST_BUCKETS};
use std::ffi::OsStr;

pub fn salvage(output: &mut Output, file: &OsStr, out: &OsStr, product: &Product) -> Status {
    with_cache(
        output,
        file,
        |output, shown, cache| match icon_cache::salvage(cache) {
            Ok(salvaged) => store(output, shown, out, &salvaged, product),
            Err(refusal) => say_refused(output, shown, &refusal),
        },
    )
}

/// Nothing is shown as gone of what the writer refuses.
fn store(
    output: &mut Output,
    shown: &str,
    out: &OsStr,
    salvaged: &Salvaged,
    product: &Product,
) -> Status {
    let catalogue = &salvaged.catalogue;
    if let Product::Catalogue = product {
        say_gone(output, salvaged);
        return put(output, out, catalogue, &sizes_of(catalogue));
    }
    let buckets = salvaged.buckets().clamp(1, MOST_BUCKETS);
    match icon_cache::write(catalogue, buckets) {
        Ok(cache) => {
            say_gone(output, salvaged);
            put_cache(output, out, &cache, buckets)
        }
        Err(refusal) => say_refused(output, shown, &refusal),
    }
}

/// The counts of a good catalogue. It may be far too long to be read as a whole.
fn sizes_of(catalogue: &[u8]) -> String {
    let number = |at: usize| usize::from(catalogue[at]) << 8 | usize::from(catalogue[at + 1]);
    let directories = number(0);
    let icons = (0..directories).fold(2, |at, _| at + 2 + number(at));
    sizes(number(icons), directories)
}

fn say_gone(output: &mut Output, salvaged: &Salvaged) {
    for row in salvaged.rows() {
        let gone = output.paint(Colour::Yellow, gone(&row));
        let rest = and_the_rest(&row);
        output.line(&format!("{}: {gone}{rest}: {}", what(&row), why(&row)));
        // The file is written, though nobody sees the other lines.
        if output.is_closed() {
            break;
        }
    }
}

/// What is wrong, in lines below that of the cache.
pub fn say_faults(output: &mut Output, salvaged: &Salvaged) {
    for row in salvaged.rows() {
        output.line(&format!("  {}: {}", what(&row), why(&row)));
        if output.is_closed() {
            break;
        }
    }
}

/// What the row is about, with the name of the icon or the directory where it can be
/// read.
fn what(row: &Row) -> String {
    match row.about {
        About::Directory { index, path } => match path {
            Some(path) => format!("directory {index}, {}", show::bytes(path)),
            None => format!("directory {index}"),
        },
        About::Icon {
            bucket,
            record,
            name,
        } => {
            let icon = match name {
                Some(name) => icon(name),
                None => format!("icon of the record at {}", show::offset(record)),
            };
            // In another bucket it may stay.
            if row.ends_chain() {
                format!("{icon} in bucket {bucket}")
            } else {
                icon
            }
        }
        About::Image {
            icon: Record { name, .. },
            image,
        } => format!("image {image} of {}", icon(name)),
        About::Chain { bucket, behind } => match behind {
            Some(record) => format!("bucket {bucket} behind {}", icon(record.name)),
            None => format!("bucket {bucket}"),
        },
    }
}

fn icon(name: &[u8]) -> String {
    format!("icon {}", show::bytes(name))
}

/// A chain that comes round has lost nothing.
fn gone(row: &Row) -> &'static str {
    match row.number {
        Refusal::ENDLESS_CHAIN => "cut where it comes round",
        _ => "gone",
    }
}

/// What went with it and has no row.
fn and_the_rest(row: &Row) -> &'static str {
    match row.about {
        About::Directory { .. } => " with its images",
        About::Icon { .. } if row.ends_chain() => " with what follows it there",
        _ => "",
    }
}

fn why(row: &Row) -> String {
    let refusal = Refusal {
        number: row.number,
        place: row.place,
        opened: 0,
    };
    match row.about {
        About::Directory { .. } => show::path_refusal(&refusal),
        _ => show::refusal(&refusal),
    }
}
