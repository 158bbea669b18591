//! The commands on one cache, or several.

use crate::arguments::{Manner, Shown};
use crate::input::Source;
use crate::output::{Colour, Output, Status};
use crate::{chains, notes, salvage, show};
use icon_cache::raw::{self, Position};
use icon_cache::{Checked, Found, Image, Record, Refusal, LARGEST};
use std::ffi::{OsStr, OsString};

pub fn check(output: &mut Output, files: &[OsString], manner: &Manner) -> Status {
    let status = files.iter().map(|file| {
        let status = check_file(output, file, manner);
        output.flush();
        status
    });
    status.max().unwrap_or(Status::Good)
}

pub fn lookup(output: &mut Output, file: &OsStr, names: &[OsString], shown: &Shown) -> Status {
    with_cache(output, file, |output, _, cache| {
        for_names(output, names, |output, name| {
            lookup_name(output, cache, name, shown)
        })
    })
}

pub fn dirs(output: &mut Output, file: &OsStr) -> Status {
    with_cache(output, file, list_directories)
}

pub fn list(output: &mut Output, file: &OsStr, from: Position, limit: usize) -> Status {
    with_cache(output, file, |output, shown, cache| {
        list_page(output, shown, cache, from, limit)
    })
}

pub fn with_cache(
    output: &mut Output,
    file: &OsStr,
    command: impl FnOnce(&mut Output, &str, &[u8]) -> Status,
) -> Status {
    with_bytes(output, &Source::of(file), LARGEST, command)
}

/// Reads the source and hands its bytes on with its name, if it can be read.
pub fn with_bytes(
    output: &mut Output,
    source: &Source,
    largest: usize,
    command: impl FnOnce(&mut Output, &str, &[u8]) -> Status,
) -> Status {
    let shown = source.shown();
    match source.read(largest) {
        Ok(bytes) => command(output, &shown, &bytes),
        Err(error) => {
            output.complain(&format!("{shown}: {error}"));
            Status::Failed
        }
    }
}

/// Asks for each name, and shows its answer at once.
pub fn for_names(
    output: &mut Output,
    names: &[OsString],
    mut ask: impl FnMut(&mut Output, &[u8]) -> Status,
) -> Status {
    let status = names.iter().map(|name| {
        let status = ask(output, name.as_encoded_bytes());
        output.flush();
        status
    });
    status.max().unwrap_or(Status::Good)
}

fn check_file(output: &mut Output, file: &OsStr, manner: &Manner) -> Status {
    let most = manner.max_size.unwrap_or(usize::MAX);
    let source = Source::of(file);
    with_bytes(
        output,
        &source,
        most.min(LARGEST),
        |output, shown, cache| {
            if cache.len() > most {
                let why = format!("the file is larger than {most} bytes, the --max-size");
                output.complain(&format!("{shown}: {why}"));
                return Status::Failed;
            }
            check_cache(output, shown, cache, manner)
        },
    )
}

fn check_cache(output: &mut Output, shown: &str, cache: &[u8], manner: &Manner) -> Status {
    if manner.all {
        return check_all(output, shown, cache, manner);
    }
    let answer = if manner.long {
        icon_cache::check_long(cache)
    } else {
        icon_cache::check(cache)
    };
    match answer {
        Ok(checked) => say_checked(output, shown, cache, &checked, manner),
        Err(refusal) => say_check_refused(output, shown, &refusal),
    }
}

/// Shows every fault below the line of the cache. A name that was used before breaks no
/// rule of the check, and is shown of an accepted cache too.
fn check_all(output: &mut Output, shown: &str, cache: &[u8], manner: &Manner) -> Status {
    let salvaged = icon_cache::salvage(cache);
    let status = match (icon_cache::check(cache), &salvaged) {
        (Ok(checked), _) => say_checked(output, shown, cache, &checked, manner),
        (Err(_), Ok(salvaged)) => {
            let faults = show::count(salvaged.rows().len(), "fault", "faults");
            say_refused_for(output, shown, &faults)
        }
        (Err(refusal), Err(_)) => say_check_refused(output, shown, &refusal),
    };
    match salvaged {
        Ok(salvaged) => salvage::say_faults(output, &salvaged),
        // There is no report.
        Err(refusal) if refusal.number == Refusal::TOO_MANY_ICONS => {
            let unsaid = match status {
                Status::Good => "the names were not looked through",
                _ => "the other faults can't be listed",
            };
            output.line(&format!("  {unsaid}: {refusal}"));
        }
        // The check has said the same.
        Err(_) => {}
    }
    status
}

fn say_checked(
    output: &mut Output,
    shown: &str,
    cache: &[u8],
    checked: &Checked,
    manner: &Manner,
) -> Status {
    say_accepted(output, shown, checked);
    if manner.verbose {
        let chains = chains::by_length(cache, checked.longest);
        for line in chains::chart(&chains) {
            output.line(&line);
        }
    }
    Status::Good
}

fn say_accepted(output: &mut Output, shown: &str, checked: &Checked) {
    let accepted = output.paint(Colour::Green, "accepted");
    let icons = show::count(checked.icons, "icon", "icons");
    let directories = show::count(checked.directories, "directory", "directories");
    let longest = checked.longest;
    output.line(&format!(
        "{shown}: {accepted}: {icons}, {directories}, longest chain {longest}"
    ));
}

/// What the check refuses. All paths are judged before a record is opened.
pub fn say_check_refused(output: &mut Output, what: &str, refusal: &Refusal) -> Status {
    if refusal.opened == 0 {
        say_path_refused(output, what, refusal)
    } else {
        say_refused(output, what, refusal)
    }
}

pub fn say_refused(output: &mut Output, what: &str, refusal: &Refusal) -> Status {
    say_refused_for(output, what, &show::refusal(refusal))
}

fn say_path_refused(output: &mut Output, what: &str, refusal: &Refusal) -> Status {
    say_refused_for(output, what, &show::path_refusal(refusal))
}

pub fn say_refused_for(output: &mut Output, what: &str, why: &str) -> Status {
    let refused = output.paint(Colour::Red, "refused");
    output.line(&format!("{what}: {refused}: {why}"));
    Status::Refused
}

/// The name is absent, or the way to it is refused.
pub fn say_not_found(output: &mut Output, name: &str, refusal: &Refusal) -> Status {
    if refusal.number != Refusal::ABSENT {
        return say_refused(output, name, refusal);
    }
    let absent = output.paint(Colour::Yellow, "absent");
    output.line(&format!("{name}: {absent}: {refusal}"));
    Status::Refused
}

fn lookup_name(output: &mut Output, cache: &[u8], name: &[u8], shown: &Shown) -> Status {
    let name_shown = show::bytes(name);
    let (status, opened) = match icon_cache::lookup(cache, name) {
        Ok(icon) => {
            let status = say_found(output, cache, &name_shown, &icon, shown);
            (status, icon.opened)
        }
        Err(refusal) => {
            let status = say_not_found(output, &name_shown, &refusal);
            (status, refusal.opened)
        }
    };
    if shown.plain {
        status.max(say_tried(output, cache, name, opened))
    } else {
        status
    }
}

/// How many records the lookup opened by the hash, and how many are tried without it. In a
/// cache that the check refuses none is.
fn say_tried(output: &mut Output, cache: &[u8], name: &[u8], opened: usize) -> Status {
    let tried = match icon_cache::plain_lookup(cache, name) {
        Ok(icon) => icon.opened,
        Err(refusal) if refusal.number == Refusal::ABSENT => refusal.opened,
        Err(refusal) => return say_untried(output, cache, &refusal),
    };
    let records = show::count(opened, "record", "records");
    output.line(&format!(
        "  opened: {records} by the hash, {tried} without it"
    ));
    Status::Good
}

/// Why no record was tried. With 17 only the check's own count tells a path from a name, so
/// the check is asked again. A refusal that is not the check's is 13, of the name asked for:
/// the line above has said so.
fn say_untried(output: &mut Output, cache: &[u8], refusal: &Refusal) -> Status {
    match icon_cache::check(cache) {
        Err(check) if check.number == refusal.number => {
            say_check_refused(output, "  without the hash", &check)
        }
        _ => Status::Refused,
    }
}

fn say_found(output: &mut Output, cache: &[u8], name: &str, icon: &Found, shown: &Shown) -> Status {
    let found = output.paint(Colour::Green, "found");
    let images = show::count(icon.images.len(), "image", "images");
    let record = show::offset(icon.record);
    output.line(&format!("{name}: {found}: {images}, record at {record}"));
    let status = icon.images.iter().map(|image| {
        let status = say_image(output, cache, image, shown);
        if shown.notes {
            status.max(notes::say(output, cache, image))
        } else {
            status
        }
    });
    status.max().unwrap_or(Status::Good)
}

fn say_image(output: &mut Output, cache: &[u8], image: &Image, shown: &Shown) -> Status {
    let flags = show::flags(image.flags, shown.numbering);
    let data = show::offset(image.data_offset as usize);
    let rest = format!("{flags}, data offset {data}");
    match directory_of(cache, image) {
        Ok(directory) => {
            output.line(&format!("  {directory}: {rest}"));
            Status::Good
        }
        Err(refusal) => {
            let index = image.directory;
            output.line(&format!("  directory {index}: {rest}"));
            say_path_refused(output, &format!("  directory {index}"), &refusal)
        }
    }
}

/// A lookup judges no paths, so that of an image may still be refused.
fn directory_of(cache: &[u8], image: &Image) -> Result<String, Refusal> {
    match image.directory {
        Image::NO_DIRECTORY => Ok("no directory".to_owned()),
        index => icon_cache::directory(cache, index.into()).map(show::bytes),
    }
}

fn list_directories(output: &mut Output, shown: &str, cache: &[u8]) -> Status {
    let mut status = Status::Good;
    let mut index = 0;
    loop {
        match icon_cache::directory(cache, index) {
            Ok(path) => output.line(&format!("{index}: {}", show::bytes(path))),
            Err(refusal) => match refusal.number {
                Refusal::BAD_PATH | Refusal::BAD_SEGMENT | Refusal::CUT_OFF => {
                    status = say_path_refused(output, &index.to_string(), &refusal);
                }
                Refusal::NO_SUCH_DIRECTORY => break,
                _ => return say_refused(output, shown, &refusal),
            },
        }
        index += 1;
    }
    if index == 0 {
        output.line(&format!("{shown}: no directories"));
    }
    status
}

/// One record more than the page takes is asked for: it tells whether there is a
/// next page.
fn list_page(
    output: &mut Output,
    shown: &str,
    cache: &[u8],
    from: Position,
    limit: usize,
) -> Status {
    let mut records = icon_cache::records_from(cache, from);
    let mut listed = 0;
    let mut end = from;
    while let Some(record) = records.next() {
        let Position { bucket, count } = records.position();
        let chain_is_new = listed == 0 || count == 1;
        match record {
            Err(refusal) if refusal.number == Refusal::BAD_POSITION => {
                return say_refused(output, &show::from(from), &refusal);
            }
            Err(refusal) => return say_refused(output, shown, &refusal),
            Ok(_) if chain_is_new && is_endless(cache, bucket) => {
                return say_refused(output, shown, &endless(cache, bucket));
            }
            Ok(_) if listed == limit => return say_next_page(output, end),
            Ok(record) => say_record(output, &record),
        }
        listed += 1;
        end = records.position();
        // The rest may take hours, and nobody would see it.
        if output.is_closed() {
            break;
        }
    }
    if listed == 0 {
        say_no_icons(output, shown, from);
    }
    Status::Good
}

/// On a chain that never ends the records would come round and round. On one that
/// ends no record follows the largest count that a position may have.
fn is_endless(cache: &[u8], bucket: usize) -> bool {
    let count = cache.len() - 11;
    let step = raw::list(cache, Position { bucket, count });
    step.number == 0 && step.position.bucket == bucket
}

/// What the check would say of that chain. The fields of the buckets follow on
/// their count, and the header says where that stands; it has been judged.
fn endless(cache: &[u8], bucket: usize) -> Refusal {
    let hash = cache[4..].first_chunk().expect("the header lies inside");
    Refusal {
        number: Refusal::ENDLESS_CHAIN,
        place: u32::from_be_bytes(*hash) as usize + 4 + 4 * bucket,
        opened: 0,
    }
}

/// The next record may take a while: its chain is passed anew.
fn say_record(output: &mut Output, record: &Record) {
    let name = show::bytes(record.name);
    let offset = show::offset(record.offset);
    output.line(&format!("{name}: record at {offset}"));
    output.flush();
}

fn say_next_page(output: &mut Output, from: Position) -> Status {
    output.line(&format!("next page: {}", show::from(from)));
    Status::Good
}

fn say_no_icons(output: &mut Output, shown: &str, from: Position) {
    let none = if from == Position::START {
        "no icons"
    } else {
        "no further icons"
    };
    output.line(&format!("{shown}: {none}"));
}
