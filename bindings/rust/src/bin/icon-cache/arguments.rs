//! The command line.

use crate::input::is_standard_input;
use crate::{help, show};
use icon_cache::{Numbering, Position, MOST_BUCKETS};
use std::borrow::Cow;
use std::collections::{HashMap, HashSet};
use std::ffi::{OsStr, OsString};
use std::mem;
use std::os::unix::ffi::OsStrExt;

/// What is asked for.
pub enum Request {
    Help(&'static str),
    Version,
    Check {
        files: Vec<OsString>,
        manner: Manner,
    },
    Lookup {
        file: OsString,
        names: Vec<OsString>,
        shown: Shown,
    },
    Dirs(OsString),
    List {
        file: OsString,
        from: Position,
        limit: usize,
    },
    Pick {
        theme: OsString,
        names: Vec<OsString>,
        wanted: Wanted,
    },
    Write {
        catalogue: OsString,
        /// How many, or as many as the icons ask for.
        buckets: Option<usize>,
        target: Target,
    },
    Catalogue {
        file: OsString,
        target: Target,
    },
    Salvage {
        file: OsString,
        out: OsString,
        product: Product,
    },
    Squeeze {
        file: OsString,
        out: OsString,
    },
}

/// What is made of that which was saved.
pub enum Product {
    Cache,
    Catalogue,
}

/// How caches are checked.
pub struct Manner {
    /// The image data too.
    pub long: bool,
    /// Every fault is shown, not only the first.
    pub all: bool,
    /// With a chart of the chains.
    pub verbose: bool,
    /// A longer file is not checked.
    pub max_size: Option<usize>,
}

/// What is shown of an icon and its images.
pub struct Shown {
    pub numbering: Numbering,
    pub notes: bool,
    /// How many records were opened, and how many are without the hash.
    pub plain: bool,
}

/// Where a result goes.
pub enum Target {
    File(OsString),
    /// What would be in the file is shown, flags in this numbering.
    Text(Numbering),
}

/// What an image is picked for, and how its flags are shown.
pub struct Wanted {
    pub size: u32,
    pub scale: u32,
    pub numbering: Numbering,
}

/// Why a command line is not understood.
pub struct Misuse {
    pub message: String,
    /// The command whose help tells more, if one is named.
    pub command: Option<&'static str>,
}

struct Command {
    name: &'static str,
    help: &'static str,
    /// The options that it takes, each with a value.
    options: &'static [&'static str],
    /// Those that it takes without one.
    switches: &'static [&'static str],
    /// Makes its request. The error says what is wrong with what is given.
    request: fn(Given) -> Result<Request, &'static str>,
}

const COMMANDS: [Command; 9] = [
    Command {
        name: "check",
        help: help::CHECK,
        options: &[MAX_SIZE],
        switches: &[ALL, LONG, VERBOSE],
        request: check,
    },
    Command {
        name: "lookup",
        help: help::LOOKUP,
        options: &[NUMBERING],
        switches: &[NOTES, PLAIN],
        request: lookup,
    },
    Command {
        name: "dirs",
        help: help::DIRS,
        options: &[],
        switches: &[],
        request: dirs,
    },
    Command {
        name: "list",
        help: help::LIST,
        options: &[FROM, LIMIT],
        switches: &[],
        request: list,
    },
    Command {
        name: "pick",
        help: help::PICK,
        options: &[SIZE, SCALE, NUMBERING],
        switches: &[],
        request: pick,
    },
    Command {
        name: "write",
        help: help::WRITE,
        options: &[OUTPUT, BUCKETS, NUMBERING],
        switches: &[TEXT],
        request: write,
    },
    Command {
        name: "catalogue",
        help: help::CATALOGUE,
        options: &[OUTPUT, NUMBERING],
        switches: &[TEXT],
        request: catalogue,
    },
    Command {
        name: "salvage",
        help: help::SALVAGE,
        options: &[OUTPUT],
        switches: &[AS_CATALOGUE],
        request: salvage,
    },
    Command {
        name: "squeeze",
        help: help::SQUEEZE,
        options: &[OUTPUT],
        switches: &[],
        request: squeeze,
    },
];

const FROM: &str = "--from";
const LIMIT: &str = "--limit";
const NUMBERING: &str = "--numbering";
const SIZE: &str = "--size";
const SCALE: &str = "--scale";
const OUTPUT: &str = "-o";
const BUCKETS: &str = "--buckets";
const TEXT: &str = "--text";
const VERBOSE: &str = "--verbose";
const LONG: &str = "--long";
const ALL: &str = "--all";
const MAX_SIZE: &str = "--max-size";
const NOTES: &str = "--notes";
const PLAIN: &str = "--plain";
const AS_CATALOGUE: &str = "--catalogue";

/// What stands behind the name of a command.
#[derive(Default)]
struct Given {
    operands: Vec<OsString>,
    /// The values of its options. Of an option given twice the last counts.
    values: HashMap<&'static str, OsString>,
    switches: HashSet<&'static str>,
}

impl Given {
    /// The value of an option. What is not UTF-8 is lost: only the name of a file has
    /// such bytes.
    fn text(&self, option: &str) -> Option<Cow<'_, str>> {
        self.values.get(option).map(|value| value.to_string_lossy())
    }
}

pub fn parse(mut arguments: impl Iterator<Item = OsString>) -> Result<Request, Misuse> {
    let Some(first) = arguments.next() else {
        return misuse(None, "a command is missing");
    };
    match first.to_str() {
        Some("-h" | "--help") => alone(&first, arguments, Request::Help(help::TOOL)),
        Some("-V" | "--version") => alone(&first, arguments, Request::Version),
        _ => match COMMANDS.iter().find(|command| first == command.name) {
            Some(command) => request(command, arguments),
            None => unknown(None, &first),
        },
    }
}

/// The request, if nothing stands behind its option.
fn alone(
    option: &OsStr,
    mut arguments: impl Iterator<Item = OsString>,
    request: Request,
) -> Result<Request, Misuse> {
    if arguments.next().is_none() {
        return Ok(request);
    }
    let option = show::bytes(option.as_encoded_bytes());
    misuse(None, &format!("{option} takes no arguments"))
}

fn request(
    command: &Command,
    mut arguments: impl Iterator<Item = OsString>,
) -> Result<Request, Misuse> {
    let mut given = Given::default();
    while let Some(argument) = arguments.next() {
        match argument.to_str() {
            Some("-h" | "--help") => return Ok(Request::Help(command.help)),
            Some("--") => given.operands.extend(arguments.by_ref()),
            _ if is_option(&argument) => match switch(command, &argument) {
                Some(switch) => {
                    given.switches.insert(switch);
                }
                None => {
                    let (name, value) = option(command, &argument, &mut arguments)?;
                    given.values.insert(name, value);
                }
            },
            _ => given.operands.push(argument),
        }
    }
    (command.request)(given).or_else(|message| misuse(Some(command.name), message))
}

fn switch(command: &Command, argument: &OsStr) -> Option<&'static str> {
    let mut switches = command.switches.iter();
    switches.find(|switch| argument == **switch).copied()
}

/// An option and its value, which stands behind a `=` or is the next argument.
fn option(
    command: &Command,
    argument: &OsStr,
    arguments: &mut impl Iterator<Item = OsString>,
) -> Result<(&'static str, OsString), Misuse> {
    let bytes = argument.as_bytes();
    let (name, value) = match bytes.iter().position(|&byte| byte == b'=') {
        Some(end) => (&bytes[..end], Some(OsStr::from_bytes(&bytes[end + 1..]))),
        None => (bytes, None),
    };
    let mut options = command.options.iter();
    let Some(option) = options.find(|option| option.as_bytes() == name) else {
        return unknown(Some(command.name), argument);
    };
    match value.map(OsStr::to_owned).or_else(|| arguments.next()) {
        Some(value) => Ok((option, value)),
        None => misuse(Some(command.name), &format!("{option} takes a value")),
    }
}

/// Standard input can be read only once.
fn check(given: Given) -> Result<Request, &'static str> {
    let max_size = match given.text(MAX_SIZE) {
        Some(value) => Some(size(&value).ok_or("--max-size takes a size, such as 4096 or 256K")?),
        None => None,
    };
    let manner = Manner {
        long: given.switches.contains(LONG),
        all: given.switches.contains(ALL),
        verbose: given.switches.contains(VERBOSE),
        max_size,
    };
    // The report that has every fault knows nothing of image data.
    if manner.all && manner.long {
        return Err("--all and --long exclude one another");
    }
    let files = given.operands;
    let from_input = files.iter().filter(|file| is_standard_input(file));
    match (files.len(), from_input.count()) {
        (0, _) => Err("a file is missing"),
        (_, 0 | 1) => Ok(Request::Check { files, manner }),
        _ => Err("standard input is named twice"),
    }
}

fn lookup(given: Given) -> Result<Request, &'static str> {
    let shown = Shown {
        numbering: numbering(&given)?,
        notes: given.switches.contains(NOTES),
        plain: given.switches.contains(PLAIN),
    };
    let (file, names) = with_names(given.operands, "a file and a name are missing")?;
    Ok(Request::Lookup { file, names, shown })
}

fn pick(mut given: Given) -> Result<Request, &'static str> {
    let numbering = numbering(&given)?;
    let operands = mem::take(&mut given.operands);
    let (theme, names) = with_names(operands, "a theme and a name are missing")?;
    // Its files would be looked for in the working directory.
    if theme.is_empty() {
        return Err("the theme has no name");
    }
    let size = given.text(SIZE).ok_or("--size is missing")?;
    let size = word(&size).ok_or("--size takes a number from 0 to 4294967295")?;
    let scale = match given.text(SCALE) {
        Some(value) => word(&value).ok_or("--scale takes a number from 0 to 4294967295")?,
        None => 1,
    };
    let wanted = Wanted {
        size,
        scale,
        numbering,
    };
    Ok(Request::Pick {
        theme,
        names,
        wanted,
    })
}

fn dirs(given: Given) -> Result<Request, &'static str> {
    only_file(given.operands).map(Request::Dirs)
}

fn list(given: Given) -> Result<Request, &'static str> {
    let from = match given.text(FROM) {
        Some(value) => position(&value).ok_or("--from takes a position, such as 0:2")?,
        None => Position::START,
    };
    let limit = match given.text(LIMIT) {
        Some(value) => page_length(&value).ok_or("--limit takes a number from 1 on")?,
        // No cache has as many icons.
        None => usize::MAX,
    };
    let file = only_file(given.operands)?;
    Ok(Request::List { file, from, limit })
}

fn write(mut given: Given) -> Result<Request, &'static str> {
    let buckets = match given.text(BUCKETS) {
        Some(value) => Some(bucket_count(&value).ok_or("--buckets takes a number from 1 to 4096")?),
        None => None,
    };
    let target = target(&mut given)?;
    let catalogue = only_file(given.operands)?;
    Ok(Request::Write {
        catalogue,
        buckets,
        target,
    })
}

fn catalogue(mut given: Given) -> Result<Request, &'static str> {
    let target = target(&mut given)?;
    let file = only_file(given.operands)?;
    Ok(Request::Catalogue { file, target })
}

fn salvage(mut given: Given) -> Result<Request, &'static str> {
    let out = output(&mut given)?.ok_or("-o OUT is missing")?;
    let product = if given.switches.contains(AS_CATALOGUE) {
        Product::Catalogue
    } else {
        Product::Cache
    };
    let file = only_file(given.operands)?;
    Ok(Request::Salvage { file, out, product })
}

fn squeeze(mut given: Given) -> Result<Request, &'static str> {
    let out = output(&mut given)?.ok_or("-o OUT is missing")?;
    let file = only_file(given.operands)?;
    Ok(Request::Squeeze { file, out })
}

fn target(given: &mut Given) -> Result<Target, &'static str> {
    let numbering = numbering(given)?;
    let shown = given.switches.contains(TEXT);
    match output(given)? {
        Some(_) if shown => Err("-o and --text exclude one another"),
        Some(file) => Ok(Target::File(file)),
        None if shown => Ok(Target::Text(numbering)),
        None => Err("-o FILE or --text is missing"),
    }
}

/// A dash is refused, since it stands for standard input elsewhere.
fn output(given: &mut Given) -> Result<Option<OsString>, &'static str> {
    match given.values.remove(OUTPUT) {
        Some(file) if file.is_empty() || is_standard_input(&file) => {
            Err("-o takes the name of a file")
        }
        file => Ok(file),
    }
}

fn only_file(mut files: Vec<OsString>) -> Result<OsString, &'static str> {
    match (files.pop(), files.len()) {
        (None, _) => Err("a file is missing"),
        (Some(file), 0) => Ok(file),
        _ => Err("there is more than one file"),
    }
}

/// A file or a theme, and at least one name.
fn with_names(
    mut operands: Vec<OsString>,
    both_missing: &'static str,
) -> Result<(OsString, Vec<OsString>), &'static str> {
    match operands.len() {
        0 => Err(both_missing),
        1 => Err("a name is missing"),
        _ => {
            let names = operands.split_off(1);
            Ok((operands.remove(0), names))
        }
    }
}

fn numbering(given: &Given) -> Result<Numbering, &'static str> {
    match given.text(NUMBERING).as_deref() {
        None => Ok(Numbering::default()),
        Some("freedesktop") => Ok(Numbering::Freedesktop),
        Some("gtk") => Ok(Numbering::Gtk),
        Some(_) => Err("--numbering takes freedesktop or gtk"),
    }
}

/// The position BUCKET:COUNT.
fn position(value: &str) -> Option<Position> {
    let (bucket, count) = value.split_once(':')?;
    Some(Position {
        bucket: number(bucket)?,
        count: number(count)?,
    })
}

/// An empty page would lead nowhere.
fn page_length(value: &str) -> Option<usize> {
    number(value).filter(|length| *length > 0)
}

/// A size in bytes, or in units of 1,024 or 1,048,576.
fn size(value: &str) -> Option<usize> {
    let (digits, unit) = match value.as_bytes().last()? {
        b'K' => (&value[..value.len() - 1], 1 << 10),
        b'M' => (&value[..value.len() - 1], 1 << 20),
        _ => (value, 1),
    };
    Some(number(digits)?.saturating_mul(unit))
}

fn bucket_count(value: &str) -> Option<usize> {
    number(value).filter(|count| (1..=MOST_BUCKETS).contains(count))
}

/// A number in digits. The largest stands for all above: no cache has a position
/// or a page of that size.
fn number(digits: &str) -> Option<usize> {
    let is_number = !digits.is_empty() && digits.bytes().all(|digit| digit.is_ascii_digit());
    is_number.then(|| digits.parse().unwrap_or(usize::MAX))
}

/// A size or a scale. One that is too large is none: the largest may fit where it
/// doesn't.
fn word(digits: &str) -> Option<u32> {
    u32::try_from(number(digits)?).ok()
}

/// A dash alone is standard input.
fn is_option(argument: &OsStr) -> bool {
    let bytes = argument.as_encoded_bytes();
    bytes.len() > 1 && bytes[0] == b'-'
}

fn unknown<T>(command: Option<&'static str>, argument: &OsStr) -> Result<T, Misuse> {
    let shown = show::bytes(argument.as_encoded_bytes());
    let kind = if is_option(argument) {
        "option"
    } else {
        "command"
    };
    misuse(command, &format!("there is no {kind} {shown}"))
}

fn misuse<T>(command: Option<&'static str>, message: &str) -> Result<T, Misuse> {
    Err(Misuse {
        message: message.to_owned(),
        command,
    })
}
