//! A second reader of icon theme caches, written from the papers alone.
//!
//! It goes another way than the library. It collects a whole chain first and
//! remembers each offset on it; a chain that comes back to one of them never
//! ends. No steps are counted; what stands at a count on such a chain is reckoned.
//! The records are judged afterwards, in order.

// Not every program asks.
#[allow(dead_code)]
pub mod notes;
mod pick;
#[allow(dead_code)]
pub mod salvage;
#[allow(dead_code)]
pub mod squeeze;

#[allow(unused_imports)]
pub use pick::{image, pick, Pick};

use std::collections::HashSet;

/// In a bucket field or a CHAIN_OFFSET: no further record.
const END: usize = 0xFFFF_FFFF;

#[derive(Clone, Copy, Debug, PartialEq, Eq)]
pub struct Check {
    pub number: u32,
    pub place: usize,
    pub directories: usize,
    pub icons: usize,
    pub opened: usize,
    pub longest: usize,
}

#[derive(Clone, Copy, Debug, PartialEq, Eq)]
pub struct Lookup {
    pub number: u32,
    pub place: usize,
    pub images: usize,
    pub opened: usize,
}

#[derive(Clone, Copy, Debug, PartialEq, Eq)]
pub struct Directory {
    pub number: u32,
    pub place: usize,
}

/// A path as a part of the cache; 0 and 0 with a refusal.
#[derive(Clone, Copy, Debug, PartialEq, Eq)]
pub struct Path {
    pub number: u32,
    pub start: usize,
    pub length: usize,
}

/// A bucket, and how many records of its chain are passed.
#[derive(Clone, Copy, Debug, PartialEq, Eq)]
pub struct Position {
    pub bucket: usize,
    pub count: usize,
}

impl Position {
    /// Before the first record.
    pub const START: Position = Position {
        bucket: 0,
        count: 0,
    };
}

#[derive(Clone, Copy, Debug, PartialEq, Eq)]
pub struct Step {
    pub number: u32,
    pub place: usize,
    pub record: usize,
    pub position: Position,
}

/// The first fault in the order of checks.
struct Fault {
    number: u32,
    place: usize,
}

fn fault(number: u32, place: usize) -> Fault {
    Fault { number, place }
}

// Reading.

/// `length` bytes from `offset` on, if they lie wholly inside. Two cuts and no
/// sum, so that nothing wraps.
fn part(cache: &[u8], offset: usize, length: usize) -> Option<&[u8]> {
    cache.get(offset..)?.get(..length)
}

/// A big-endian number of a field that lies inside.
fn number(cache: &[u8], field: usize, width: usize) -> usize {
    let bytes = &cache[field..][..width];
    bytes
        .iter()
        .fold(0, |value, &byte| value * 256 + usize::from(byte))
}

/// The count at `offset`, if it and the entries after it lie wholly inside.
fn count(cache: &[u8], offset: usize, entry: usize) -> Option<usize> {
    part(cache, offset, 4)?;
    let count = number(cache, offset, 4);
    part(cache, offset + 4, count.checked_mul(entry)?)?;
    Some(count)
}

/// The string at `offset`. If it is empty or too long it is refused with the number
/// given, and with 17 if it runs off the end before it is too long.
fn string(cache: &[u8], offset: usize, longest: usize, refusal: u32) -> Result<&[u8], u32> {
    let rest = cache.get(offset..).unwrap_or_default();
    match rest.iter().position(|&byte| byte == 0) {
        Some(length) if (1..=longest).contains(&length) => Ok(&rest[..length]),
        None if rest.len() <= longest => Err(17),
        _ => Err(refusal),
    }
}

/// Each byte is a signed number: 128 to 255 count as -128 to -1.
pub fn hash(name: &[u8]) -> u32 {
    let modulus = 1 << 32;
    let bytes = name.iter().map(|&byte| i64::from(byte as i8));
    let hash = bytes.reduce(|h, byte| (31 * h + byte).rem_euclid(modulus));
    let hash = hash.expect("a name is not empty");
    hash.rem_euclid(modulus) as u32
}

// The parts of a cache.

/// Where the two tables lie and how many entries they have.
struct Tables {
    directory_list: usize,
    directories: usize,
    hash: usize,
    buckets: usize,
}

impl Tables {
    fn bucket_of(&self, name: &[u8]) -> usize {
        hash(name) as usize % self.buckets
    }

    fn bucket_field(&self, bucket: usize) -> usize {
        self.hash + 4 + 4 * bucket
    }

    fn path_field(&self, index: usize) -> usize {
        self.directory_list + 4 + 4 * index
    }
}

/// Refusals 1 to 5.
fn tables(cache: &[u8]) -> Result<Tables, Fault> {
    if cache.len() < 12 {
        return Err(fault(1, 0));
    }
    if cache.len() > 16_777_216 {
        return Err(fault(2, 0));
    }
    if number(cache, 0, 2) != 1 || number(cache, 2, 2) != 0 {
        return Err(fault(3, 0));
    }
    let directory_list = number(cache, 8, 4);
    let directories = count(cache, directory_list, 4)
        .filter(|&n| n <= 65_535)
        .ok_or(fault(4, 8))?;
    let hash = number(cache, 4, 4);
    let buckets = count(cache, hash, 4)
        .filter(|&b| b >= 1)
        .ok_or(fault(5, 4))?;
    Ok(Tables {
        directory_list,
        directories,
        hash,
        buckets,
    })
}

/// Refusals 6, 16 and 17, or the place and the length of the path.
fn path(cache: &[u8], tables: &Tables, index: usize) -> Result<(usize, usize), Fault> {
    let field = tables.path_field(index);
    let start = number(cache, field, 4);
    match string(cache, start, 1_023, 6) {
        Ok(path) if path[0] == b'/' => Err(fault(6, field)),
        Ok(path) if !pieces_allowed(path) => Err(fault(16, field)),
        Ok(path) => Ok((start, path.len())),
        Err(refusal) => Err(fault(refusal, field)),
    }
}

/// No piece of a path, cut at the slashes, is empty, "." or "..".
pub fn pieces_allowed(path: &[u8]) -> bool {
    let mut pieces = path.split(|&byte| byte == b'/');
    !pieces.any(|piece| matches!(piece, b"" | b"." | b".."))
}

/// A chain up to its end: the records that lie inside, each met once.
struct Chain {
    records: Vec<usize>,
    end: ChainEnd,
}

enum ChainEnd {
    /// The end value.
    Ended,
    /// This field names a record that is not wholly inside.
    Outside { field: usize },
    /// The next record was met before, as the one of this number from 0 on.
    Repeats { from: usize },
}

fn chain(cache: &[u8], bucket_field: usize) -> Chain {
    let mut records = Vec::new();
    let mut visited = HashSet::new();
    let mut field = bucket_field;
    let end = loop {
        let record = number(cache, field, 4);
        if record == END {
            break ChainEnd::Ended;
        }
        if part(cache, record, 12).is_none() {
            break ChainEnd::Outside { field };
        }
        if !visited.insert(record) {
            let from = records.iter().take_while(|&&met| met != record).count();
            break ChainEnd::Repeats { from };
        }
        records.push(record);
        // A record begins with its CHAIN_OFFSET.
        field = record;
    };
    Chain { records, end }
}

/// What stands on a record that keeps the rules.
struct Icon<'a> {
    name: &'a [u8],
    image_list: usize,
    images: usize,
}

impl Icon<'_> {
    /// Where the image of this number stands, from 0 on.
    fn image(&self, number: usize) -> usize {
        self.image_list + 4 + 8 * number
    }
}

/// Refusals 8 to 11 and 17 on a record of this bucket's chain.
fn icon<'a>(
    cache: &'a [u8],
    tables: &Tables,
    bucket: usize,
    record: usize,
) -> Result<Icon<'a>, Fault> {
    let name = name_of(cache, record).map_err(|refusal| fault(refusal, record + 4))?;
    if tables.bucket_of(name) != bucket {
        return Err(fault(9, record + 4));
    }
    let image_list = number(cache, record + 8, 4);
    let images = count(cache, image_list, 8)
        .filter(|&m| m <= 1_024)
        .ok_or(fault(10, record + 8))?;
    let mut places = (0..images).map(|i| image_list + 4 + 8 * i);
    if let Some(image) = places.find(|&image| !image_allowed(cache, tables, image)) {
        return Err(fault(11, image));
    }
    Ok(Icon {
        name,
        image_list,
        images,
    })
}

fn name_of(cache: &[u8], record: usize) -> Result<&[u8], u32> {
    string(cache, number(cache, record + 4, 4), 255, 8)
}

fn image_allowed(cache: &[u8], tables: &Tables, image: usize) -> bool {
    let index = number(cache, image, 2);
    let flags = number(cache, image + 2, 2);
    let index_allowed = match tables.directories {
        0 => index == 0xFFFF,
        n => index < n && index != 0xFFFF,
    };
    index_allowed && flags <= 15
}

// The calls.

pub fn check(cache: &[u8]) -> Check {
    check_with(cache, |_| Ok(()))
}

pub fn check_long(cache: &[u8]) -> Check {
    check_with(cache, |icon| notes::judge(cache, icon))
}

fn refused(fault: Fault, opened: usize) -> Check {
    Check {
        number: fault.number,
        place: fault.place,
        directories: 0,
        icons: 0,
        opened,
        longest: 0,
    }
}

/// Each record that keeps the other rules is judged by this one too.
fn check_with(cache: &[u8], judge: impl Fn(&Icon) -> Result<(), Fault>) -> Check {
    let tables = match tables(cache) {
        Ok(tables) => tables,
        Err(fault) => return refused(fault, 0),
    };
    for index in 0..tables.directories {
        if let Err(fault) = path(cache, &tables, index) {
            return refused(fault, 0);
        }
    }
    let mut icons = 0;
    let mut longest = 0;
    for bucket in 0..tables.buckets {
        let bucket_field = tables.bucket_field(bucket);
        let chain = chain(cache, bucket_field);
        longest = longest.max(chain.records.len());
        for &record in &chain.records {
            icons += 1;
            let icon = icon(cache, &tables, bucket, record);
            if let Err(fault) = icon.and_then(|icon| judge(&icon)) {
                return refused(fault, icons);
            }
        }
        match chain.end {
            ChainEnd::Ended => {}
            ChainEnd::Outside { field } => return refused(fault(7, field), icons),
            ChainEnd::Repeats { .. } => return refused(fault(12, bucket_field), cache.len() - 10),
        }
    }
    Check {
        number: 0,
        place: 0,
        directories: tables.directories,
        icons,
        opened: icons,
        longest,
    }
}

/// The first record of a name on its chain, and how many are opened up to it.
struct Match<'a> {
    record: usize,
    icon: Icon<'a>,
    opened: usize,
}

fn name_allowed(name: &[u8]) -> bool {
    !name.is_empty() && name.len() <= 255 && !name.contains(&0)
}

/// A refusal comes with the number of records opened, too.
fn find<'a>(cache: &'a [u8], name: &[u8]) -> Result<Match<'a>, (Fault, usize)> {
    if !name_allowed(name) {
        return Err((fault(13, 0), 0));
    }
    let tables = tables(cache).map_err(|fault| (fault, 0))?;
    let bucket = tables.bucket_of(name);
    let bucket_field = tables.bucket_field(bucket);
    let chain = chain(cache, bucket_field);
    for (before, &record) in chain.records.iter().enumerate() {
        let opened = before + 1;
        let icon = icon(cache, &tables, bucket, record).map_err(|fault| (fault, opened))?;
        if icon.name == name {
            return Ok(Match {
                record,
                icon,
                opened,
            });
        }
    }
    let length = chain.records.len();
    Err(match chain.end {
        ChainEnd::Ended => (fault(30, 0), length),
        ChainEnd::Outside { field } => (fault(7, field), length),
        ChainEnd::Repeats { .. } => (fault(12, bucket_field), cache.len() - 10),
    })
}

pub fn lookup(cache: &[u8], name: &[u8], words: &mut [u32]) -> Lookup {
    match find(cache, name) {
        Ok(found) => with_images(cache, &found, words),
        Err((fault, opened)) => Lookup {
            number: fault.number,
            place: fault.place,
            images: 0,
            opened,
        },
    }
}

/// The lookup that knows no hash: after the check all records are tried, bucket by bucket.
/// Not every test asks.
#[allow(dead_code)]
pub fn plain_lookup(cache: &[u8], name: &[u8], words: &mut [u32]) -> Lookup {
    let without = |number, place, opened| Lookup {
        number,
        place,
        images: 0,
        opened,
    };
    if !name_allowed(name) {
        return without(13, 0, 0);
    }
    let checked = check(cache);
    let tables = match tables(cache) {
        Ok(tables) if checked.number == 0 => tables,
        _ => return without(checked.number, checked.place, 0),
    };
    let mut opened = 0;
    for bucket in 0..tables.buckets {
        for record in chain(cache, tables.bucket_field(bucket)).records {
            opened += 1;
            match icon(cache, &tables, bucket, record) {
                Ok(icon) if icon.name == name => {
                    let found = Match {
                        record,
                        icon,
                        opened,
                    };
                    return with_images(cache, &found, words);
                }
                _ => {}
            }
        }
    }
    without(30, 0, opened)
}

/// The answer after a match: 0 with the images in the words, or 14.
fn with_images(cache: &[u8], found: &Match<'_>, words: &mut [u32]) -> Lookup {
    let images = found.icon.images;
    let answer = |number, place| Lookup {
        number,
        place,
        images,
        opened: found.opened,
    };
    if words.len() < 2 * images {
        return answer(14, found.icon.image_list);
    }
    for i in 0..images {
        let image = found.icon.image(i);
        let (index, flags) = (number(cache, image, 2), number(cache, image + 2, 2));
        words[2 * i] = (index * 65_536 + flags) as u32;
        words[2 * i + 1] = number(cache, image + 4, 4) as u32;
    }
    answer(0, found.record)
}

pub fn directory(cache: &[u8], index: usize) -> Directory {
    let (number, place) = match find_path(cache, index) {
        Ok(_) => (0, 0),
        Err(fault) => (fault.number, fault.place),
    };
    Directory { number, place }
}

pub fn directory_path(cache: &[u8], index: usize) -> Path {
    let (number, (start, length)) = match find_path(cache, index) {
        Ok(part) => (0, part),
        Err(fault) => (fault.number, (0, 0)),
    };
    Path {
        number,
        start,
        length,
    }
}

fn find_path(cache: &[u8], index: usize) -> Result<(usize, usize), Fault> {
    let tables = tables(cache)?;
    if index >= tables.directories {
        return Err(fault(15, 0));
    }
    path(cache, &tables, index)
}

pub fn list(cache: &[u8], position: Position) -> Step {
    let (number, place, record, position) = match next_record(cache, position) {
        Ok(Some((record, after))) => (0, 0, record, after),
        Ok(None) => (28, 0, 0, position),
        Err(fault) => (fault.number, fault.place, 0, position),
    };
    Step {
        number,
        place,
        record,
        position,
    }
}

/// The next record and the position after it.
fn next_record(cache: &[u8], position: Position) -> Result<Option<(usize, Position)>, Fault> {
    let tables = tables(cache)?;
    if position.bucket >= tables.buckets || position.count > cache.len() - 11 {
        return Err(fault(26, 0));
    }
    let mut passed = position.count;
    for bucket in position.bucket..tables.buckets {
        if let Some(record) = record_after(cache, &tables, bucket, passed)? {
            let count = passed + 1;
            return Ok(Some((record, Position { bucket, count })));
        }
        passed = 0;
    }
    Ok(None)
}

/// The record that follows on so many of the bucket's chain, unless the chain has
/// no more. It and those before it are judged.
fn record_after(
    cache: &[u8],
    tables: &Tables,
    bucket: usize,
    passed: usize,
) -> Result<Option<usize>, Fault> {
    let Chain { records, end } = chain(cache, tables.bucket_field(bucket));
    for &record in records.iter().take(passed + 1) {
        icon(cache, tables, bucket, record)?;
    }
    if passed < records.len() {
        return Ok(Some(records[passed]));
    }
    match end {
        ChainEnd::Ended => Ok(None),
        ChainEnd::Outside { field } => Err(fault(7, field)),
        ChainEnd::Repeats { from } => {
            let round = &records[from..];
            Ok(Some(round[(passed - from) % round.len()]))
        }
    }
}

/// The name of a record that was handed back.
pub fn name(cache: &[u8], record: usize) -> &[u8] {
    name_of(cache, record).expect("the record was judged")
}

/// How many directories and buckets there are, if none of 1 to 5 stands.
pub fn sizes(cache: &[u8]) -> Option<(usize, usize)> {
    let tables = tables(cache).ok()?;
    Some((tables.directories, tables.buckets))
}

/// All records that keep the rules, in the order of the check.
fn icons(cache: &[u8]) -> Vec<Icon<'_>> {
    let Ok(tables) = tables(cache) else {
        return Vec::new();
    };
    let mut icons = Vec::new();
    for bucket in 0..tables.buckets {
        for record in chain(cache, tables.bucket_field(bucket)).records {
            icons.extend(icon(cache, &tables, bucket, record));
        }
    }
    icons
}

/// Their names.
pub fn names(cache: &[u8]) -> Vec<&[u8]> {
    icons(cache).into_iter().map(|icon| icon.name).collect()
}

/// How many records the chain of each bucket has; those of an endless one count
/// once. Not every test asks.
#[allow(dead_code)]
pub fn chain_lengths(cache: &[u8]) -> Vec<usize> {
    let Ok(tables) = tables(cache) else {
        return Vec::new();
    };
    (0..tables.buckets)
        .map(|bucket| chain(cache, tables.bucket_field(bucket)).records.len())
        .collect()
}

/// The number of the record that the chain of a bucket comes back to, from 0 on,
/// unless it ends. Not every test asks.
#[allow(dead_code)]
pub fn round_start(cache: &[u8], bucket: usize) -> Option<usize> {
    let tables = tables(cache).ok()?;
    match chain(cache, tables.bucket_field(bucket)).end {
        ChainEnd::Repeats { from } => Some(from),
        _ => None,
    }
}

/// How many images the list of a record has. Not every test asks.
#[allow(dead_code)]
pub fn images(cache: &[u8], record: usize) -> usize {
    count(cache, number(cache, record + 8, 4), 8).expect("the list was judged")
}

/// The directory index of the image at a place. Not every test asks.
#[allow(dead_code)]
pub fn index_of_image(cache: &[u8], image: usize) -> usize {
    number(cache, image, 2)
}

/// The record that the chain of a bucket comes back to, unless it ends. Not every test
/// asks.
#[allow(dead_code)]
pub fn repeated_record(cache: &[u8], bucket: usize) -> Option<usize> {
    let tables = tables(cache).ok()?;
    let Chain { records, end } = chain(cache, tables.bucket_field(bucket));
    match end {
        ChainEnd::Repeats { from } => Some(records[from]),
        _ => None,
    }
}
