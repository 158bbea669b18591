//! Reads, writes and repairs icon theme caches (`icon-theme.cache`).
//!
//! The cache is a lent byte slice; nothing in it is trusted. [`check`] judges
//! the whole cache, [`check_long`] also what is noted on its images, and the module
//! [`notes`] reads that. [`lookup`] finds the images of one icon name, and so does
//! [`plain_lookup`], which is there for teaching. [`directory`] gives the path of one
//! directory index, [`records`] hands back all icon records, and [`records_from`] those
//! from a [`Position`] on. [`Flags`] names the flags of an image by the [`Numbering`]
//! of the cache's generator. [`pick`] chooses the
//! image of an icon for a size; what the directories are made for is told by
//! the words that a [`Theme`] gives. [`write`] makes a cache from a [`Catalogue`],
//! [`catalogue_of`] lists a cache as one, and [`salvage`] lists what is sound of a
//! damaged one and reports what went. [`squeeze`] rewrites a cache without dead bytes.
//!
//! ```
//! use icon_cache::{check, directory, lookup, records, FARM_CACHE};
//!
//! assert_eq!(check(FARM_CACHE)?.icons, 3);
//!
//! let cow = lookup(FARM_CACHE, b"cow")?;
//! let last = cow.images.last().unwrap();
//! assert_eq!(directory(FARM_CACHE, last.directory.into())?, b"64");
//!
//! for record in records(FARM_CACHE) {
//!     assert!(lookup(FARM_CACHE, record?.name).is_ok());
//! }
//! # Ok::<(), icon_cache::Refusal>(())
//! ```
//!
//! What is wrong with a cache is told by a [`Refusal`], and what is wrong with an
//! `index.theme` by a [`ThemeError`]. The module [`raw`] has the calls on caches
//! without any allocation.

mod catalogue;
mod farm;
mod field;
mod flags;
pub mod notes;
mod pick;
pub mod raw;
mod records;
mod refusal;
mod salvage;
mod squeeze;
mod theme;

pub use catalogue::{catalogue_of, write, Catalogue, Icon, MOST_BUCKETS};
pub use farm::FARM_CACHE;
pub use field::Field;
pub use flags::{Flags, Numbering};
pub use pick::{pick, Picked, WORDS_PER_DIRECTORY};
pub use raw::Position;
pub use records::{records, records_from, Record, Records};
pub use refusal::Refusal;
pub use salvage::{salvage, About, Row, Rows, Salvaged};
pub use squeeze::squeeze;
pub use theme::{Theme, ThemeError, ThemeFault};

/// The largest length of a cache, 16 MiB. A longer one is refused.
///
/// ```
/// use icon_cache::{check, Refusal, LARGEST};
///
/// let refusal = check(&vec![0; LARGEST + 1]).unwrap_err();
/// assert_eq!(refusal.number, Refusal::TOO_LARGE);
/// ```
pub const LARGEST: usize = 16_777_216;

/// An accepted cache.
#[derive(Clone, Copy, Debug, PartialEq, Eq)]
pub struct Checked {
    /// How many directories the cache has.
    pub directories: usize,
    /// How many icon records the cache has.
    pub icons: usize,
    /// How many icon records the check opened.
    pub opened: usize,
    /// How many records the longest of the buckets' chains has. No [`lookup`] in this
    /// cache opens more; 0 if there are no icons.
    pub longest: usize,
}

/// One image of an icon.
///
/// ```
/// use icon_cache::{lookup, Flags, Numbering, FARM_CACHE};
///
/// let cow = lookup(FARM_CACHE, b"cow").unwrap();
/// let flags = Flags::from_raw(cow.images[0].flags, Numbering::Freedesktop).unwrap();
/// assert_eq!(flags, Flags::BITMAP_SUFFIX);
/// ```
#[derive(Clone, Copy, Debug, PartialEq, Eq)]
pub struct Image {
    /// The index of its directory, or [`Image::NO_DIRECTORY`].
    pub directory: u16,
    /// The sum of its flags, 0 to 15, as it stands in the cache. Which flags they
    /// are depends on the generator: [`Flags::from_raw`] takes a [`Numbering`].
    pub flags: u16,
    /// The offset of its image data, as it stands in the cache; [`notes`] reads what is
    /// there.
    pub data_offset: u32,
}

impl Image {
    /// The directory index of each image in a cache without directories.
    pub const NO_DIRECTORY: u16 = 0xFFFF;
}

/// An icon found.
#[derive(Clone, Debug, PartialEq, Eq)]
pub struct Found {
    /// The offset of its record.
    pub record: usize,
    /// Its images, in the order of its image list.
    pub images: Vec<Image>,
    /// How many icon records the lookup opened; of [`plain_lookup`], how many it tried.
    pub opened: usize,
}

/// Checks the whole cache.
///
/// A cache of 16 MiB that was made to cost time can take some seconds, one of
/// 256 KiB some hundredths of a second: do it in a thread of its own, or set a
/// smaller limit of length. A chain that never ends costs about as much as a
/// long one that does, or twice that: each of its records is judged once.
///
/// ```
/// use icon_cache::{check, Refusal, FARM_CACHE};
///
/// let checked = check(FARM_CACHE).unwrap();
/// assert_eq!((checked.directories, checked.icons), (2, 3));
/// // "hen" and "oat" share a bucket, so a lookup opens two records at most.
/// assert_eq!(checked.longest, 2);
///
/// // Let the chain of the first bucket run in a circle.
/// let mut cache = FARM_CACHE.to_vec();
/// cache[40..44].copy_from_slice(&28u32.to_be_bytes());
/// let refusal = check(&cache).unwrap_err();
/// assert_eq!(refusal.number, Refusal::ENDLESS_CHAIN);
/// assert_eq!(refusal.place, 16);
/// assert_eq!(refusal.to_string(), "the chain of this bucket never ends");
/// ```
pub fn check(cache: &[u8]) -> Result<Checked, Refusal> {
    checked(raw::check(cache))
}

/// Checks the whole cache, and what stands behind its images' data offsets: pixel data,
/// and what [`notes`] reads. What [`check`] refuses is refused here too, by the same
/// rule unless the data of an image breaks one before it; what this check accepts,
/// [`check`] accepts with the same numbers.
///
/// Records may share an image list, images their data and entries their strings, and
/// each is judged as often as it is named. So a cache that was made to cost time costs
/// far more than it costs [`check`]: 4 KiB can take a second, 8 KiB ten, 64 KiB half an
/// hour and 16 MiB some days. No limit of length is of much use: judge what strangers
/// made in a process that can be stopped after some time.
///
/// ```
/// use icon_cache::{check, check_long, Refusal, FARM_CACHE};
///
/// assert_eq!(check_long(FARM_CACHE), check(FARM_CACHE));
///
/// // Of the image data at 120 six bytes are there.
/// let mut cache = FARM_CACHE.to_vec();
/// cache[72..76].copy_from_slice(&120u32.to_be_bytes());
/// let refusal = check_long(&cache).unwrap_err();
/// assert_eq!((refusal.number, refusal.place), (Refusal::BAD_IMAGE_DATA, 72));
/// assert!(check(&cache).is_ok());
/// ```
pub fn check_long(cache: &[u8]) -> Result<Checked, Refusal> {
    checked(raw::check_long(cache))
}

fn checked(answer: raw::Check) -> Result<Checked, Refusal> {
    match answer.number {
        0 => Ok(Checked {
            directories: answer.directories,
            icons: answer.icons,
            opened: answer.opened,
            longest: answer.longest,
        }),
        number => Err(Refusal {
            number,
            place: answer.place,
            opened: answer.opened,
        }),
    }
}

/// Looks up one icon name. Only the records that it meets are judged, so a name
/// may be found in a cache that [`check`] refuses. Names are compared byte for
/// byte: two ways to write an accented letter in Unicode are two names.
///
/// A cache that was made to cost time costs about as much as it costs [`check`],
/// some seconds at 16 MiB.
///
/// ```
/// use icon_cache::{lookup, Refusal, FARM_CACHE};
///
/// let cow = lookup(FARM_CACHE, b"cow").unwrap();
/// assert_eq!((cow.record, cow.opened), (52, 1));
/// assert_eq!(cow.images.len(), 2);
/// assert_eq!((cow.images[1].directory, cow.images[1].flags), (1, 4));
///
/// let refusal = lookup(FARM_CACHE, b"pig").unwrap_err();
/// assert_eq!(refusal.number, Refusal::ABSENT);
/// ```
pub fn lookup(cache: &[u8], name: &[u8]) -> Result<Found, Refusal> {
    lookup_by(raw::lookup, cache, name)
}

/// Looks up one icon name without its hash. This call is there for teaching: the records
/// of all buckets are tried one by one, in the order of [`records`].
///
/// The name is judged first (13), then the whole cache: what [`check`] refuses is refused
/// here with the same number and place and no record tried, also where [`lookup`] would
/// find the name. In a cache that [`check`] accepts both find the same record and images.
/// `opened` is the number of records tried; with [`Refusal::ABSENT`] that is all icons.
///
/// ```
/// use icon_cache::{lookup, plain_lookup, Refusal, FARM_CACHE};
///
/// let cow = lookup(FARM_CACHE, b"cow").unwrap();
/// let tried = plain_lookup(FARM_CACHE, b"cow").unwrap();
/// assert_eq!((tried.record, &tried.images), (cow.record, &cow.images));
/// assert_eq!((tried.opened, cow.opened), (3, 1));
///
/// let refusal = plain_lookup(FARM_CACHE, b"pig").unwrap_err();
/// assert_eq!((refusal.number, refusal.opened), (Refusal::ABSENT, 3));
/// ```
pub fn plain_lookup(cache: &[u8], name: &[u8]) -> Result<Found, Refusal> {
    lookup_by(raw::plain_lookup, cache, name)
}

fn lookup_by(
    call: impl Fn(&[u8], &[u8], &mut [u32]) -> raw::Lookup,
    cache: &[u8],
    name: &[u8],
) -> Result<Found, Refusal> {
    let mut usual = [0; 2 * USUAL_IMAGES];
    let answer = call(cache, name, &mut usual);
    if answer.number != Refusal::NO_ROOM {
        return found(answer, &usual);
    }
    // This answer says how many images there are.
    let mut words = vec![0; 2 * answer.images];
    found(call(cache, name, &mut words), &words)
}

/// Few icons have more images, so one call is mostly enough.
const USUAL_IMAGES: usize = 32;

fn found(answer: raw::Lookup, words: &[u32]) -> Result<Found, Refusal> {
    match answer.number {
        0 => Ok(Found {
            record: answer.place,
            images: words[..2 * answer.images]
                .chunks_exact(2)
                .map(image)
                .collect(),
            opened: answer.opened,
        }),
        number => Err(Refusal {
            number,
            place: answer.place,
            opened: answer.opened,
        }),
    }
}

/// The first word of an image holds its index above its flags.
fn image(words: &[u32]) -> Image {
    Image {
        directory: (words[0] >> 16) as u16,
        flags: (words[0] & 0xFFFF) as u16,
        data_offset: words[1],
    }
}

/// Gives the path of one directory, a part of the cache. The path may hold any
/// bytes but zero. It doesn't begin with a slash, and none of its pieces, cut at
/// the slashes, is empty, "." or "..": so, as its text goes, it leads nowhere but
/// below the folder that it is taken from. Only "/" counts as a separator: where
/// "\\" is one too, it is the caller's to judge, and so are symbolic links.
///
/// ```
/// use icon_cache::{directory, Refusal, FARM_CACHE};
///
/// assert_eq!(directory(FARM_CACHE, 1).unwrap(), b"64");
/// let refusal = directory(FARM_CACHE, 2).unwrap_err();
/// assert_eq!(refusal.number, Refusal::NO_SUCH_DIRECTORY);
/// ```
pub fn directory(cache: &[u8], index: usize) -> Result<&[u8], Refusal> {
    let path = raw::directory_path(cache, index);
    match path.number {
        0 => Ok(&cache[path.start..][..path.length]),
        _ => Err(directory_refusal(cache, index)),
    }
}

/// The call for the path doesn't say where the fault is.
fn directory_refusal(cache: &[u8], index: usize) -> Refusal {
    let answer = raw::directory(cache, index);
    Refusal {
        number: answer.number,
        place: answer.place,
        opened: 0,
    }
}
