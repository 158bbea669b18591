//! The calls of the library as they are: an answer number, a place and counts.
//! Nothing is allocated; found images and reports go into the words lent, and what is
//! written goes into the bytes lent.

/// The answer of [`check`] and [`check_long`].
#[derive(Clone, Copy, Debug, PartialEq, Eq)]
pub struct Check {
    /// The answer number, 0 for an accepted cache.
    pub number: u32,
    /// The offset of the fault, 0 for an accepted cache.
    pub place: usize,
    /// How many directories there are, 0 with a refusal.
    pub directories: usize,
    /// How many icon records there are, 0 with a refusal.
    pub icons: usize,
    /// How many records the walk opened.
    pub opened: usize,
    /// How many records the longest chain has, 0 with a refusal.
    pub longest: usize,
}

/// The answer of [`lookup`] and [`plain_lookup`].
#[derive(Clone, Copy, Debug, PartialEq, Eq)]
pub struct Lookup {
    /// The answer number, 0 for a name found.
    pub number: u32,
    /// The offset of the record found, or of the fault.
    pub place: usize,
    /// How many images the icon has, with the numbers 0 and 14.
    pub images: usize,
    /// How many records the walk opened.
    pub opened: usize,
}

/// The answer of [`directory`].
#[derive(Clone, Copy, Debug, PartialEq, Eq)]
pub struct Directory {
    /// The answer number, 0 for a directory with an allowed path.
    pub number: u32,
    /// The offset of the fault, or 0.
    pub place: usize,
}

/// The answer of [`directory_path`]: a part of the cache, empty with a refusal.
#[derive(Clone, Copy, Debug, PartialEq, Eq)]
pub struct Path {
    /// The answer number, 0 for a directory with an allowed path.
    pub number: u32,
    /// The offset of the path's first byte.
    pub start: usize,
    /// The path's length, without the zero byte.
    pub length: usize,
}

/// Where a walk over all records stands: a bucket, and how many records of its
/// chain are passed. Any position may be made up.
#[derive(Clone, Copy, Debug, PartialEq, Eq)]
pub struct Position {
    /// The number of the bucket, from 0 on.
    pub bucket: usize,
    /// How many records of the bucket's chain are passed.
    pub count: usize,
}

impl Position {
    /// Before the first record.
    pub const START: Position = Position {
        bucket: 0,
        count: 0,
    };
}

/// The answer of [`list`].
#[derive(Clone, Copy, Debug, PartialEq, Eq)]
pub struct Step {
    /// The answer number, 0 for a record handed back.
    pub number: u32,
    /// The offset of the fault, or 0.
    pub place: usize,
    /// The offset of the record handed back, 0 with any number but 0.
    pub record: usize,
    /// The position after the record; with any number but 0, as it came.
    pub position: Position,
}

impl Step {
    /// The number if there is no further record. It is no refusal.
    pub const DONE: u32 = 28;
}

/// The answer of [`flags_in`] and [`flags_out`].
#[derive(Clone, Copy, Debug, PartialEq, Eq)]
pub struct Renumbered {
    /// The answer number, 0 for flags in the numbering asked for.
    pub number: u32,
    /// These flags, 0 with a refusal.
    pub flags: u16,
}

/// The answer of [`pick`].
#[derive(Clone, Copy, Debug, PartialEq, Eq)]
pub struct Pick {
    /// The answer number, 0 for an image picked and for none that fits.
    pub number: u32,
    /// With 0, the offset of the image picked, or 0 if none fits. With 32, the index
    /// of the type in the words lent. With any other number the offset of the fault,
    /// or 0 where it has none.
    pub place: usize,
}

/// The answer of [`rectangle`]: its corners, 0 with a refusal.
#[derive(Clone, Copy, Debug, PartialEq, Eq)]
pub struct Rectangle {
    /// The answer number, 0 for a rectangle.
    pub number: u32,
    /// The offset of the fault, or 0.
    pub place: usize,
    /// The left edge.
    pub x0: u16,
    /// The upper edge.
    pub y0: u16,
    /// The right edge.
    pub x1: u16,
    /// The lower edge.
    pub y1: u16,
}

/// The answer of [`attach_point`]: the point, 0 and 0 with a refusal.
#[derive(Clone, Copy, Debug, PartialEq, Eq)]
pub struct AttachPoint {
    /// The answer number, 0 for a point.
    pub number: u32,
    /// The offset of the fault, or 0.
    pub place: usize,
    /// How far it is from the left edge.
    pub x: u16,
    /// How far it is from the upper edge.
    pub y: u16,
}

/// The answer of [`display_language`] and [`display_name`]: a part of the cache, empty
/// with a refusal.
#[derive(Clone, Copy, Debug, PartialEq, Eq)]
pub struct Text {
    /// The answer number, 0 for a string.
    pub number: u32,
    /// The offset of the fault, or 0.
    pub place: usize,
    /// The offset of the string's first byte.
    pub start: usize,
    /// The string's length, without the zero byte.
    pub length: usize,
}

/// The answer of [`write`], [`catalogue_of`] and [`squeeze`].
#[derive(Clone, Copy, Debug, PartialEq, Eq)]
pub struct Written {
    /// The answer number, 0 if something was written.
    pub number: u32,
    /// The offset of the fault in what was read, or 0 where it has none.
    pub place: usize,
    /// How many bytes were written, 0 with a refusal.
    pub length: usize,
}

/// The answer of [`salvage`].
#[derive(Clone, Copy, Debug, PartialEq, Eq)]
pub struct Salvage {
    /// The answer number, 0 if a catalogue and a report were written.
    pub number: u32,
    /// The offset of the fault, or 0 where it has none.
    pub place: usize,
    /// How many bytes the catalogue has, 0 with a refusal.
    pub length: usize,
    /// How many rows the report has, of two words each, 0 with a refusal.
    pub rows: usize,
}

mod c {
    extern "C" {
        pub fn icon_cache_check(
            cache: *const u8,
            cache_len: usize,
            place: *mut usize,
            directories: *mut usize,
            icons: *mut usize,
            opened: *mut usize,
            longest: *mut usize,
        ) -> u32;

        pub fn icon_cache_check_long(
            cache: *const u8,
            cache_len: usize,
            place: *mut usize,
            directories: *mut usize,
            icons: *mut usize,
            opened: *mut usize,
            longest: *mut usize,
        ) -> u32;

        pub fn icon_cache_rectangle(
            cache: *const u8,
            cache_len: usize,
            data: usize,
            place: *mut usize,
            x0: *mut u16,
            y0: *mut u16,
            x1: *mut u16,
            y1: *mut u16,
        ) -> u32;

        pub fn icon_cache_attach_point(
            cache: *const u8,
            cache_len: usize,
            data: usize,
            entry: usize,
            place: *mut usize,
            x: *mut u16,
            y: *mut u16,
        ) -> u32;

        pub fn icon_cache_display_language(
            cache: *const u8,
            cache_len: usize,
            data: usize,
            entry: usize,
            place: *mut usize,
            start: *mut usize,
            length: *mut usize,
        ) -> u32;

        pub fn icon_cache_display_name(
            cache: *const u8,
            cache_len: usize,
            data: usize,
            entry: usize,
            place: *mut usize,
            start: *mut usize,
            length: *mut usize,
        ) -> u32;

        pub fn icon_cache_lookup(
            cache: *const u8,
            cache_len: usize,
            name: *const u8,
            name_len: usize,
            words: *mut u32,
            words_len: usize,
            place: *mut usize,
            images: *mut usize,
            opened: *mut usize,
        ) -> u32;

        pub fn icon_cache_plain_lookup(
            cache: *const u8,
            cache_len: usize,
            name: *const u8,
            name_len: usize,
            words: *mut u32,
            words_len: usize,
            place: *mut usize,
            images: *mut usize,
            opened: *mut usize,
        ) -> u32;

        pub fn icon_cache_directory(
            cache: *const u8,
            cache_len: usize,
            index: usize,
            place: *mut usize,
        ) -> u32;

        pub fn icon_cache_directory_path(
            cache: *const u8,
            cache_len: usize,
            index: usize,
            start: *mut usize,
            length: *mut usize,
        ) -> u32;

        pub fn icon_cache_list(
            cache: *const u8,
            cache_len: usize,
            bucket: *mut usize,
            count: *mut usize,
            place: *mut usize,
            record: *mut usize,
        ) -> u32;

        pub fn icon_cache_flags_in(raw: u16, numbering: u32, flags: *mut u16) -> u32;

        pub fn icon_cache_flags_out(flags: u16, numbering: u32, raw: *mut u16) -> u32;

        pub fn icon_cache_pick(
            cache: *const u8,
            cache_len: usize,
            name: *const u8,
            name_len: usize,
            size: u32,
            scale: u32,
            directories: *const u32,
            directories_len: usize,
            place: *mut usize,
        ) -> u32;

        pub fn icon_cache_write(
            catalogue: *const u8,
            catalogue_len: usize,
            buckets: usize,
            cache: *mut u8,
            cache_len: usize,
            place: *mut usize,
            length: *mut usize,
        ) -> u32;

        pub fn icon_cache_catalogue(
            cache: *const u8,
            cache_len: usize,
            catalogue: *mut u8,
            catalogue_len: usize,
            place: *mut usize,
            length: *mut usize,
        ) -> u32;

        pub fn icon_cache_squeeze(
            cache: *const u8,
            cache_len: usize,
            squeezed: *mut u8,
            squeezed_len: usize,
            place: *mut usize,
            length: *mut usize,
        ) -> u32;

        pub fn icon_cache_salvage(
            cache: *const u8,
            cache_len: usize,
            catalogue: *mut u8,
            catalogue_len: usize,
            report: *mut u32,
            report_len: usize,
            place: *mut usize,
            length: *mut usize,
            rows: *mut usize,
        ) -> u32;
    }
}

/// A value that was not written shows: no call answers the long one, and the short one is
/// answered only as the corner or the point that is given.
const UNWRITTEN: usize = usize::MAX;
const UNWRITTEN_SHORT: u16 = u16::MAX;

/// The address of the bytes. That of an empty slice may dangle, so C code is
/// handed the address of a real byte instead.
fn address(bytes: &[u8]) -> *const u8 {
    static NO_BYTES: u8 = 0;
    if bytes.is_empty() {
        &NO_BYTES
    } else {
        bytes.as_ptr()
    }
}

/// The same of bytes that are written to.
fn lent_address(bytes: &mut [u8], no_bytes: &mut u8) -> *mut u8 {
    if bytes.is_empty() {
        no_bytes
    } else {
        bytes.as_mut_ptr()
    }
}

/// The same of words that are written to.
fn lent_words(words: &mut [u32], no_words: &mut u32) -> *mut u32 {
    if words.is_empty() {
        no_words
    } else {
        words.as_mut_ptr()
    }
}

// The answers are written to variables of their own and not to the fields of a
// struct: where the compiler copies a struct by parts wider than those that were
// written, the processor waits for the writes.

/// A check of the library: `icon_cache_check` or `icon_cache_check_long`.
type CheckCall = unsafe extern "C" fn(
    cache: *const u8,
    cache_len: usize,
    place: *mut usize,
    directories: *mut usize,
    icons: *mut usize,
    opened: *mut usize,
    longest: *mut usize,
) -> u32;

/// Checks the whole cache.
#[inline]
pub fn check(cache: &[u8]) -> Check {
    check_by(c::icon_cache_check, cache)
}

/// Checks the whole cache, and what stands behind its images' data offsets.
#[inline]
pub fn check_long(cache: &[u8]) -> Check {
    check_by(c::icon_cache_check_long, cache)
}

#[inline(always)]
fn check_by(call: CheckCall, cache: &[u8]) -> Check {
    let mut place = UNWRITTEN;
    let mut directories = UNWRITTEN;
    let mut icons = UNWRITTEN;
    let mut opened = UNWRITTEN;
    let mut longest = UNWRITTEN;
    // SAFETY: the pointers are valid for the lengths given and for this call,
    // and only the five numbers are written.
    let number = unsafe {
        call(
            address(cache),
            cache.len(),
            &mut place,
            &mut directories,
            &mut icons,
            &mut opened,
            &mut longest,
        )
    };
    Check {
        number,
        place,
        directories,
        icons,
        opened,
        longest,
    }
}

/// A lookup of the library: `icon_cache_lookup` or `icon_cache_plain_lookup`.
type LookupCall = unsafe extern "C" fn(
    cache: *const u8,
    cache_len: usize,
    name: *const u8,
    name_len: usize,
    words: *mut u32,
    words_len: usize,
    place: *mut usize,
    images: *mut usize,
    opened: *mut usize,
) -> u32;

/// Looks up one icon name. Two words are needed for each image; with any other
/// number than 0 the words stay as they were.
#[inline]
pub fn lookup(cache: &[u8], name: &[u8], words: &mut [u32]) -> Lookup {
    lookup_by(c::icon_cache_lookup, cache, name, words)
}

/// Looks up one icon name without its hash: the whole cache is checked, then its records
/// are tried one by one. The words are lent as for [`lookup`].
#[inline]
pub fn plain_lookup(cache: &[u8], name: &[u8], words: &mut [u32]) -> Lookup {
    lookup_by(c::icon_cache_plain_lookup, cache, name, words)
}

#[inline(always)]
fn lookup_by(call: LookupCall, cache: &[u8], name: &[u8], words: &mut [u32]) -> Lookup {
    let mut no_words = 0;
    let mut place = UNWRITTEN;
    let mut images = UNWRITTEN;
    let mut opened = UNWRITTEN;
    // SAFETY: the pointers are valid for the lengths given and for this call,
    // and only the lent words and the three numbers are written.
    let number = unsafe {
        call(
            address(cache),
            cache.len(),
            address(name),
            name.len(),
            lent_words(words, &mut no_words),
            words.len(),
            &mut place,
            &mut images,
            &mut opened,
        )
    };
    Lookup {
        number,
        place,
        images,
        opened,
    }
}

/// Gives the answer number for one directory index.
#[inline]
pub fn directory(cache: &[u8], index: usize) -> Directory {
    let mut place = UNWRITTEN;
    // SAFETY: the pointers are valid for the length given and for this call,
    // and only the place is written.
    let number = unsafe { c::icon_cache_directory(address(cache), cache.len(), index, &mut place) };
    Directory { number, place }
}

/// Gives the part of the cache that holds the path of one directory.
#[inline]
pub fn directory_path(cache: &[u8], index: usize) -> Path {
    let mut start = UNWRITTEN;
    let mut length = UNWRITTEN;
    // SAFETY: the pointers are valid for the length given and for this call,
    // and only the two numbers are written.
    let number = unsafe {
        c::icon_cache_directory_path(address(cache), cache.len(), index, &mut start, &mut length)
    };
    Path {
        number,
        start,
        length,
    }
}

/// Hands back the next record from a position on, in the check's order.
#[inline]
pub fn list(cache: &[u8], position: Position) -> Step {
    let Position {
        mut bucket,
        mut count,
    } = position;
    let mut place = UNWRITTEN;
    let mut record = UNWRITTEN;
    // SAFETY: the pointers are valid for the length given and for this call,
    // and only the four numbers are written.
    let number = unsafe {
        c::icon_cache_list(
            address(cache),
            cache.len(),
            &mut bucket,
            &mut count,
            &mut place,
            &mut record,
        )
    };
    Step {
        number,
        place,
        record,
        position: Position { bucket, count },
    }
}

/// Turns raw flags of a numbering into those of numbering 0: bitmap suffix 1, XPM
/// suffix 2, SVG suffix 4, icon file 8. Numbering 1 has XPM suffix 1, SVG suffix 2,
/// bitmap suffix 4, icon file 8. Others are refused with 27, and so are flags above
/// 15.
#[inline]
pub fn flags_in(raw: u16, numbering: u32) -> Renumbered {
    let mut flags = UNWRITTEN_SHORT;
    // SAFETY: the pointer is valid for this call, and only the flags are written.
    let number = unsafe { c::icon_cache_flags_in(raw, numbering, &mut flags) };
    Renumbered { number, flags }
}

/// Turns flags of numbering 0 into raw flags of a numbering: the way back of
/// [`flags_in`], which refuses the same.
#[inline]
pub fn flags_out(flags: u16, numbering: u32) -> Renumbered {
    let mut raw = UNWRITTEN_SHORT;
    // SAFETY: the pointer is valid for this call, and only the flags are written.
    let number = unsafe { c::icon_cache_flags_out(flags, numbering, &mut raw) };
    Renumbered { number, flags: raw }
}

/// Picks the first image of an icon whose directory fits a size and a scale. The six
/// words of each directory of the cache, in its order, are the type (0 Fixed, 1
/// Scalable, 2 Threshold), Size, Scale, MinSize, MaxSize and Threshold.
#[inline]
pub fn pick(cache: &[u8], name: &[u8], size: u32, scale: u32, directories: &[u32]) -> Pick {
    let no_words = 0;
    let lent = if directories.is_empty() {
        &no_words
    } else {
        directories.as_ptr()
    };
    let mut place = UNWRITTEN;
    // SAFETY: the pointers are valid for the lengths given and for this call,
    // and only the place is written.
    let number = unsafe {
        c::icon_cache_pick(
            address(cache),
            cache.len(),
            address(name),
            name.len(),
            size,
            scale,
            lent,
            directories.len(),
            &mut place,
        )
    };
    Pick { number, place }
}

/// Gives the rectangle for text in an image, by the offset of the image's data.
#[inline]
pub fn rectangle(cache: &[u8], data: usize) -> Rectangle {
    let mut place = UNWRITTEN;
    let [mut x0, mut y0, mut x1, mut y1] = [UNWRITTEN_SHORT; 4];
    // SAFETY: the pointers are valid for the length given and for this call,
    // and only the five numbers are written.
    let number = unsafe {
        c::icon_cache_rectangle(
            address(cache),
            cache.len(),
            data,
            &mut place,
            &mut x0,
            &mut y0,
            &mut x1,
            &mut y1,
        )
    };
    Rectangle {
        number,
        place,
        x0,
        y0,
        x1,
        y1,
    }
}

/// Gives one attach point of an image, by the offset of the image's data.
#[inline]
pub fn attach_point(cache: &[u8], data: usize, entry: usize) -> AttachPoint {
    let mut place = UNWRITTEN;
    let [mut x, mut y] = [UNWRITTEN_SHORT; 2];
    // SAFETY: the pointers are valid for the length given and for this call,
    // and only the three numbers are written.
    let number = unsafe {
        c::icon_cache_attach_point(
            address(cache),
            cache.len(),
            data,
            entry,
            &mut place,
            &mut x,
            &mut y,
        )
    };
    AttachPoint {
        number,
        place,
        x,
        y,
    }
}

/// `icon_cache_display_language` or `icon_cache_display_name`.
type TextCall = unsafe extern "C" fn(
    cache: *const u8,
    cache_len: usize,
    data: usize,
    entry: usize,
    place: *mut usize,
    start: *mut usize,
    length: *mut usize,
) -> u32;

/// Gives the part of the cache that holds the language of one display name of an
/// image, by the offset of the image's data.
#[inline]
pub fn display_language(cache: &[u8], data: usize, entry: usize) -> Text {
    text_by(c::icon_cache_display_language, cache, data, entry)
}

/// Gives the part of the cache that holds the text of one display name of an image, by
/// the offset of the image's data.
#[inline]
pub fn display_name(cache: &[u8], data: usize, entry: usize) -> Text {
    text_by(c::icon_cache_display_name, cache, data, entry)
}

#[inline(always)]
fn text_by(call: TextCall, cache: &[u8], data: usize, entry: usize) -> Text {
    let mut place = UNWRITTEN;
    let mut start = UNWRITTEN;
    let mut length = UNWRITTEN;
    // SAFETY: the pointers are valid for the length given and for this call,
    // and only the three numbers are written.
    let number = unsafe {
        call(
            address(cache),
            cache.len(),
            data,
            entry,
            &mut place,
            &mut start,
            &mut length,
        )
    };
    Text {
        number,
        place,
        start,
        length,
    }
}

/// Writes the cache of a catalogue, with this many buckets, to the front of the
/// bytes lent; those behind stay as they were, and so do all with a refusal. It
/// needs 300 KiB of stack.
pub fn write(catalogue: &[u8], buckets: usize, cache: &mut [u8]) -> Written {
    let mut place = UNWRITTEN;
    let mut length = UNWRITTEN;
    let mut no_bytes = 0;
    // SAFETY: the pointers are valid for the lengths given and for this call,
    // and only the lent bytes and the two numbers are written.
    let number = unsafe {
        c::icon_cache_write(
            address(catalogue),
            catalogue.len(),
            buckets,
            lent_address(cache, &mut no_bytes),
            cache.len(),
            &mut place,
            &mut length,
        )
    };
    Written {
        number,
        place,
        length,
    }
}

/// Lists a cache as a catalogue, at the front of the bytes lent; those behind stay as
/// they were, and so do all with a refusal. It needs 300 KiB of stack.
pub fn catalogue_of(cache: &[u8], catalogue: &mut [u8]) -> Written {
    let mut place = UNWRITTEN;
    let mut length = UNWRITTEN;
    let mut no_bytes = 0;
    // SAFETY: the pointers are valid for the lengths given and for this call,
    // and only the lent bytes and the two numbers are written.
    let number = unsafe {
        c::icon_cache_catalogue(
            address(cache),
            cache.len(),
            lent_address(catalogue, &mut no_bytes),
            catalogue.len(),
            &mut place,
            &mut length,
        )
    };
    Written {
        number,
        place,
        length,
    }
}

/// Saves what is sound of a cache: a catalogue, at the front of the bytes lent, and a
/// report of what went, at the front of the words lent, number and place for each row.
/// Those behind stay as they were, and so do all with a refusal.
pub fn salvage(cache: &[u8], catalogue: &mut [u8], report: &mut [u32]) -> Salvage {
    let mut place = UNWRITTEN;
    let mut length = UNWRITTEN;
    let mut rows = UNWRITTEN;
    let (mut no_bytes, mut no_words) = (0, 0);
    // SAFETY: the pointers are valid for the lengths given and for this call,
    // and only the lent bytes and words and the three numbers are written.
    let number = unsafe {
        c::icon_cache_salvage(
            address(cache),
            cache.len(),
            lent_address(catalogue, &mut no_bytes),
            catalogue.len(),
            lent_words(report, &mut no_words),
            report.len(),
            &mut place,
            &mut length,
            &mut rows,
        )
    };
    Salvage {
        number,
        place,
        length,
        rows,
    }
}

/// Squeezes the dead bytes out of a cache, into the front of the bytes lent; those behind
/// stay as they were, and so do all with a refusal. It needs 640 KiB of stack.
pub fn squeeze(cache: &[u8], squeezed: &mut [u8]) -> Written {
    let mut place = UNWRITTEN;
    let mut length = UNWRITTEN;
    let mut no_bytes = 0;
    // SAFETY: the pointers are valid for the lengths given and for this call,
    // and only the lent bytes and the two numbers are written.
    let number = unsafe {
        c::icon_cache_squeeze(
            address(cache),
            cache.len(),
            lent_address(squeezed, &mut no_bytes),
            squeezed.len(),
            &mut place,
            &mut length,
        )
    };
    Written {
        number,
        place,
        length,
    }
}
