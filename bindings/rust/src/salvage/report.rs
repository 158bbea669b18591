//! The report as rows that say what they are about.
//!
//! A row has a number and a place, and rows come in the order met. So the way over the
//! paths and along the chains is gone once more, and each row is taken where it belongs.
//! The library has judged all that is read on it.

use crate::{raw, Record, Refusal};
use std::iter::FusedIterator;

/// In a bucket field or a CHAIN_OFFSET: no further record.
const END: usize = 0xFFFF_FFFF;

/// The rules that are broken by what the rows are about, beside those of [`Refusal`].
const RECORD_OUTSIDE: u32 = 7;
const BAD_NAME: u32 = 8;
const FOREIGN_NAME: u32 = 9;
const BAD_IMAGE_LIST: u32 = 10;
const BAD_IMAGE: u32 = 11;

/// A row of a report: what went, and why.
#[derive(Clone, Copy, Debug, PartialEq, Eq)]
pub struct Row<'a> {
    /// The number of the rule that it breaks: 6 to 12, 16, 17 or 20.
    pub number: u32,
    /// The offset of the fault in the cache.
    pub place: usize,
    /// What it is about.
    pub about: About<'a>,
}

impl Row<'_> {
    /// Whether its chain was followed no further, so that what the chain led to may be
    /// lost: with 7, 8, 9, and 17 of a name.
    pub fn ends_chain(&self) -> bool {
        match self.about {
            About::Icon { .. } => is_of_name(self.number),
            About::Chain { .. } => self.number == RECORD_OUTSIDE,
            _ => false,
        }
    }
}

/// A fault of a name, behind which no record is sought.
fn is_of_name(number: u32) -> bool {
    matches!(number, BAD_NAME | FOREIGN_NAME | Refusal::CUT_OFF)
}

/// What a row of a report is about. Names and paths are parts of the cache.
#[derive(Clone, Copy, Debug, PartialEq, Eq)]
pub enum About<'a> {
    /// A directory went, and with it all images in it, which have no rows: 6, 16 or 17.
    Directory {
        /// Its index in the cache.
        index: usize,
        /// Its path, unless that is empty, too long or runs off the end.
        path: Option<&'a [u8]>,
    },
    /// An icon went: 8, 9, 10, 17 or 20. With 8, 9 and 17, a fault of its name, the
    /// chain ends there.
    Icon {
        /// The bucket on whose chain it was met.
        bucket: usize,
        /// The offset of its record.
        record: usize,
        /// Its name, unless that is empty, too long or runs off the end.
        name: Option<&'a [u8]>,
    },
    /// An image of an icon that stays went: 11.
    Image {
        /// The record of the icon.
        icon: Record<'a>,
        /// Which of its images in the cache it is, from 0 on.
        image: usize,
    },
    /// A chain was cut: its next record leaves the cache, 7, or was met before, 12.
    Chain {
        /// Its bucket.
        bucket: usize,
        /// With 7, the record that it was cut behind, if any.
        behind: Option<Record<'a>>,
    },
}

/// An iterator over the rows of a report, see
/// [`Salvaged::rows`](crate::Salvaged::rows).
#[derive(Clone, Debug)]
#[must_use = "iterators are lazy"]
pub struct Rows<'a> {
    cache: &'a [u8],
    words: &'a [u32],
    /// The next directory, until all were asked.
    directory: Option<usize>,
    walk: Walk<'a>,
}

impl<'a> Rows<'a> {
    /// The rows of what was saved of the cache.
    pub(super) fn new(cache: &'a [u8], words: &'a [u32]) -> Rows<'a> {
        Rows {
            cache,
            words,
            directory: Some(0),
            walk: Walk::new(cache),
        }
    }

    /// The next directory that is refused. All of these come before other rows.
    fn refused_directory(&mut self) -> Option<About<'a>> {
        let mut index = self.directory.take()?;
        loop {
            match raw::directory(self.cache, index).number {
                0 => index += 1,
                Refusal::NO_SUCH_DIRECTORY => return None,
                _ => break,
            }
        }
        self.directory = Some(index + 1);
        let field = field(self.cache, 8) + 4 + 4 * index;
        let path = string(self.cache, field, 1_023);
        Some(About::Directory { index, path })
    }
}

impl<'a> Iterator for Rows<'a> {
    type Item = Row<'a>;

    fn next(&mut self) -> Option<Row<'a>> {
        let (row, rest) = self.words.split_first_chunk()?;
        self.words = rest;
        let [number, place] = *row;
        let place = place as usize;
        let about = match self.refused_directory() {
            Some(directory) => directory,
            None => self.walk.find(number, place)?,
        };
        Some(Row {
            number,
            place,
            about,
        })
    }

    fn size_hint(&self) -> (usize, Option<usize>) {
        let rows = self.words.len() / 2;
        (rows, Some(rows))
    }
}

impl ExactSizeIterator for Rows<'_> {}

impl FusedIterator for Rows<'_> {}

/// Where the way along the chains stands.
#[derive(Clone, Debug)]
struct Walk<'a> {
    cache: &'a [u8],
    bucket: usize,
    /// The record passed last on this chain.
    last: Option<Record<'a>>,
    /// Its first image that no row was for, if its icon stays.
    image: Option<usize>,
}

impl<'a> Walk<'a> {
    fn new(cache: &'a [u8]) -> Walk<'a> {
        Walk {
            cache,
            bucket: 0,
            last: None,
            image: None,
        }
    }

    /// What the next row is about. The way to it leads past records that stay with all
    /// their images, and to the ends of chains that need no row.
    fn find(&mut self, number: u32, place: usize) -> Option<About<'a>> {
        // No other row of its chain follows, so nothing is passed on the way.
        if number == Refusal::ENDLESS_CHAIN {
            self.bucket = (place - bucket_field(self.cache, 0)) / 4;
            return Some(self.end_chain(None));
        }
        while self.bucket < buckets(self.cache) {
            if number == BAD_IMAGE {
                if let Some(image) = self.image_at(place) {
                    return Some(image);
                }
            }
            let link = self.link();
            if number == RECORD_OUTSIDE && place == link {
                let behind = self.last;
                return Some(self.end_chain(behind));
            }
            match field(self.cache, link) {
                END => {
                    self.end_chain(None);
                }
                record if self.is_of(number, place, record) => {
                    return Some(self.leave(number, record));
                }
                record => self.pass(record, Some(0)),
            }
        }
        None
    }

    /// The field that names the next record: a record begins with its CHAIN_OFFSET.
    fn link(&self) -> usize {
        match self.last {
            Some(record) => record.offset,
            None => bucket_field(self.cache, self.bucket),
        }
    }

    /// The image of the icon passed last that stands at a place, if no row was for it or
    /// one behind it: those would belong to another icon that shares the image.
    fn image_at(&mut self, place: usize) -> Option<About<'a>> {
        let (icon, first) = self.last.zip(self.image)?;
        let list = field(self.cache, icon.offset + 8);
        let distance = place.checked_sub(list + 4)?;
        let image = distance / 8;
        let is_there = distance % 8 == 0 && image < field(self.cache, list);
        if !is_there || image < first {
            return None;
        }
        self.image = Some(image + 1);
        Some(About::Image { icon, image })
    }

    /// Whether a row is that of the record met next. A record that stays on this chain
    /// may have a row on another one, for its name is foreign there.
    fn is_of(&self, number: u32, place: usize, record: usize) -> bool {
        match number {
            BAD_NAME | Refusal::CUT_OFF | Refusal::REPEATED_NAME => place == record + 4,
            FOREIGN_NAME => place == record + 4 && self.is_foreign(record),
            BAD_IMAGE_LIST => place == record + 8,
            _ => false,
        }
    }

    fn is_foreign(&self, record: usize) -> bool {
        let name = name(self.cache, record);
        name.is_some_and(|name| hash(name) as usize % buckets(self.cache) != self.bucket)
    }

    /// The record goes; behind one with a fault of its name the chain ends.
    fn leave(&mut self, number: u32, record: usize) -> About<'a> {
        let about = About::Icon {
            bucket: self.bucket,
            record,
            name: name(self.cache, record),
        };
        if is_of_name(number) {
            self.end_chain(None);
        } else {
            self.pass(record, None);
        }
        about
    }

    fn pass(&mut self, offset: usize, image: Option<usize>) {
        let name = name(self.cache, offset).unwrap_or_default();
        self.last = Some(Record { offset, name });
        self.image = image;
    }

    fn end_chain(&mut self, behind: Option<Record<'a>>) -> About<'a> {
        let bucket = self.bucket;
        self.bucket += 1;
        self.last = None;
        self.image = None;
        About::Chain { bucket, behind }
    }
}

/// The number of four bytes at an offset.
fn field(cache: &[u8], offset: usize) -> usize {
    let bytes = cache[offset..].first_chunk();
    u32::from_be_bytes(*bytes.expect("the field lies inside")) as usize
}

fn bucket_field(cache: &[u8], bucket: usize) -> usize {
    field(cache, 4) + 4 + 4 * bucket
}

/// How many buckets there are in a cache whose tables were judged.
pub(super) fn buckets(cache: &[u8]) -> usize {
    field(cache, field(cache, 4))
}

fn name(cache: &[u8], record: usize) -> Option<&[u8]> {
    string(cache, record + 4, 255)
}

/// The string that a field names, if it can be read: it is not empty, not too long, and
/// a zero byte ends it.
fn string(cache: &[u8], at: usize, longest: usize) -> Option<&[u8]> {
    let rest = cache.get(field(cache, at)..)?;
    let length = rest.iter().take(longest + 1).position(|&byte| byte == 0)?;
    (length > 0).then_some(&rest[..length])
}

/// Each byte counts as a signed number.
fn hash(name: &[u8]) -> u32 {
    let bytes = name.iter().map(|&byte| byte as i8 as u32);
    let hash = bytes.reduce(|hash, byte| hash.wrapping_mul(31).wrapping_add(byte));
    hash.unwrap_or_default()
}
