//! A second writer and reader of catalogues, written from the papers alone.
//!
//! It goes another way than the library. A catalogue is read into lists first, and
//! names are remembered in a set. The icons of each bucket are collected before one
//! of them is linked to the next.

pub mod made;

use crate::reader;
use std::collections::HashSet;

/// In a bucket field or a CHAIN_OFFSET: no further record.
const END: u32 = 0xFFFF_FFFF;

#[derive(Clone, Copy, Debug, PartialEq, Eq)]
pub struct Answer {
    pub number: u32,
    pub place: usize,
    pub length: usize,
}

/// Number and place.
type Fault = (u32, usize);

pub struct Icon {
    pub name: Vec<u8>,
    /// Where its name begins in the catalogue.
    name_at: usize,
    /// Eight bytes each.
    pub images: Vec<Vec<u8>>,
}

impl Icon {
    /// An icon that comes from no catalogue.
    #[allow(dead_code)]
    pub fn new(name: Vec<u8>, images: Vec<Vec<u8>>) -> Icon {
        Icon {
            name,
            name_at: 0,
            images,
        }
    }
}

pub struct Catalogue {
    pub paths: Vec<Vec<u8>>,
    pub icons: Vec<Icon>,
}

/// Answers, and puts what is to be written to the front of the bytes lent.
fn answer(result: Result<Vec<u8>, Fault>, lent: &mut [u8]) -> Answer {
    let room = lent.len();
    let fits = result.and_then(|bytes| {
        let fits = bytes.len() <= room;
        if fits {
            Ok(bytes)
        } else {
            Err((19, 0))
        }
    });
    match fits {
        Ok(bytes) => {
            lent[..bytes.len()].copy_from_slice(&bytes);
            Answer {
                number: 0,
                place: 0,
                length: bytes.len(),
            }
        }
        Err((number, place)) => Answer {
            number,
            place,
            length: 0,
        },
    }
}

pub fn write(catalogue: &[u8], buckets: usize, lent: &mut [u8]) -> Answer {
    answer(written(catalogue, buckets), lent)
}

fn written(bytes: &[u8], buckets: usize) -> Result<Vec<u8>, Fault> {
    let catalogue = read(bytes)?;
    let mut used = HashSet::new();
    for icon in &catalogue.icons {
        if !used.insert(&icon.name) {
            return Err((20, icon.name_at));
        }
    }
    if !(1..=4_096).contains(&buckets) {
        return Err((18, 0));
    }
    let cache = lay_out(&catalogue, buckets);
    if cache.len() > 16_777_216 {
        return Err((19, 0));
    }
    Ok(cache)
}

/// The bytes from `at` on.
struct Cursor<'a> {
    bytes: &'a [u8],
    at: usize,
}

impl<'a> Cursor<'a> {
    /// A field of this width, if it is there and right.
    fn field(
        &mut self,
        width: usize,
        is_right: impl FnOnce(&[u8]) -> bool,
    ) -> Result<&'a [u8], Fault> {
        let field = self.bytes.get(self.at..).and_then(|rest| rest.get(..width));
        match field {
            Some(field) if is_right(field) => {
                self.at += width;
                Ok(field)
            }
            _ => Err((18, self.at)),
        }
    }

    fn number(
        &mut self,
        width: usize,
        allowed: std::ops::RangeInclusive<usize>,
    ) -> Result<usize, Fault> {
        let field = self.field(width, |field| allowed.contains(&value(field)))?;
        Ok(value(field))
    }
}

fn value(field: &[u8]) -> usize {
    field.iter().fold(0, |n, &byte| 256 * n + usize::from(byte))
}

/// Reads all fields, or says which is the first bad one.
pub fn read(bytes: &[u8]) -> Result<Catalogue, Fault> {
    let mut cursor = Cursor { bytes, at: 0 };
    let mut paths = Vec::new();
    for _ in 0..cursor.number(2, 0..=65_535)? {
        let length = cursor.number(2, 1..=1_023)?;
        let path = cursor.field(length, |path| {
            !path.contains(&0) && reader::pieces_allowed(path)
        })?;
        paths.push(path.to_vec());
    }
    let mut icons = Vec::new();
    for _ in 0..cursor.number(2, 0..=65_535)? {
        let length = cursor.number(1, 1..=255)?;
        let name_at = cursor.at;
        let name = cursor.field(length, |name| !name.contains(&0))?.to_vec();
        let mut images = Vec::new();
        for _ in 0..cursor.number(2, 0..=1_024)? {
            let image = cursor.field(8, |image| image_allowed(image, paths.len()))?;
            images.push(image.to_vec());
        }
        icons.push(Icon {
            name,
            name_at,
            images,
        });
    }
    if cursor.at != bytes.len() {
        return Err((18, cursor.at));
    }
    Ok(Catalogue { paths, icons })
}

fn image_allowed(image: &[u8], directories: usize) -> bool {
    let index = value(&image[..2]);
    let index_allowed = match directories {
        0 => index == 0xFFFF,
        _ => index < directories,
    };
    index_allowed && value(&image[2..4]) <= 15
}

fn put(cache: &mut Vec<u8>, number: usize) {
    cache.extend((number as u32).to_be_bytes());
}

/// Where each of some parts begins, one behind the other from `start` on, and where
/// the last ends.
fn places(start: usize, lengths: impl Iterator<Item = usize>) -> (Vec<usize>, usize) {
    let mut end = start;
    let places = lengths.map(|length| {
        end += length;
        end - length
    });
    (places.collect(), end)
}

/// The cache of a catalogue, also of one that no bytes can say.
pub fn lay_out(catalogue: &Catalogue, buckets: usize) -> Vec<u8> {
    let Catalogue { paths, icons } = catalogue;
    let hash = 12;
    let (records, lists) = places(hash + 4 + 4 * buckets, icons.iter().map(|_| 12));
    let (lists, directories) = places(lists, icons.iter().map(|i| 4 + 8 * i.images.len()));
    let strings = directories + 4 + 4 * paths.len();
    let (path_places, names) = places(strings, paths.iter().map(|path| path.len() + 1));
    let (names, end) = places(names, icons.iter().map(|icon| icon.name.len() + 1));

    let mut chains = vec![Vec::new(); buckets];
    for (icon, record) in icons.iter().zip(&records) {
        chains[reader::hash(&icon.name) as usize % buckets].push(*record);
    }
    let mut next = vec![END as usize; icons.len()];
    for pair in chains.iter().flat_map(|chain| chain.windows(2)) {
        next[(pair[0] - 16 - 4 * buckets) / 12] = pair[1];
    }

    let mut cache = vec![0, 1, 0, 0];
    put(&mut cache, hash);
    put(&mut cache, directories);
    put(&mut cache, buckets);
    for chain in &chains {
        put(
            &mut cache,
            chain.first().map_or(END as usize, |first| *first),
        );
    }
    for (i, next) in next.iter().enumerate() {
        put(&mut cache, *next);
        put(&mut cache, names[i]);
        put(&mut cache, lists[i]);
    }
    for icon in icons {
        put(&mut cache, icon.images.len());
        cache.extend(icon.images.iter().flatten());
    }
    put(&mut cache, paths.len());
    for place in path_places {
        put(&mut cache, place);
    }
    for text in paths.iter().chain(icons.iter().map(|icon| &icon.name)) {
        cache.extend(text);
        cache.push(0);
    }
    assert_eq!(cache.len(), end);
    cache
}

/// Lists a cache as a catalogue. Not every test asks.
#[allow(dead_code)]
pub fn list(cache: &[u8], lent: &mut [u8]) -> Answer {
    answer(listed(cache), lent)
}

/// The bytes of the catalogue, whatever room there is.
pub fn listed(cache: &[u8]) -> Result<Vec<u8>, Fault> {
    let check = reader::check(cache);
    if check.number != 0 {
        return Err((check.number, check.place));
    }
    let mut records = chained(cache);
    let mut used = HashSet::new();
    for record in &records {
        if !used.insert(string(cache, record + 4)) {
            return Err((20, record + 4));
        }
    }
    if records.len() > 65_535 {
        return Err((21, 0));
    }
    records.sort_unstable();

    let directories = offset(cache, 8);
    let count = offset(cache, directories);
    let mut bytes = (count as u16).to_be_bytes().to_vec();
    for index in 1..=count {
        let path = string(cache, directories + 4 * index);
        bytes.extend((path.len() as u16).to_be_bytes());
        bytes.extend(path);
    }
    bytes.extend((records.len() as u16).to_be_bytes());
    for record in records {
        let name = string(cache, record + 4);
        bytes.push(name.len() as u8);
        bytes.extend(name);
        let list = offset(cache, record + 8);
        let images = offset(cache, list);
        bytes.extend((images as u16).to_be_bytes());
        bytes.extend(&cache[list + 4..][..8 * images]);
    }
    Ok(bytes)
}

/// All records of an accepted cache, chain by chain.
fn chained(cache: &[u8]) -> Vec<usize> {
    let hash = offset(cache, 4);
    let mut records = Vec::new();
    for bucket in 1..=offset(cache, hash) {
        let mut record = offset(cache, hash + 4 * bucket);
        while record != END as usize {
            records.push(record);
            record = offset(cache, record);
        }
    }
    records
}

fn offset(cache: &[u8], field: usize) -> usize {
    value(&cache[field..][..4])
}

/// The string that a field of an accepted cache names.
fn string(cache: &[u8], field: usize) -> &[u8] {
    let rest = &cache[offset(cache, field)..];
    let end = rest.iter().position(|&byte| byte == 0);
    &rest[..end.expect("a zero byte ends it")]
}
