use std::error::Error;
use std::fmt;

/// Why a call was refused: the answer number, the place of the fault and the
/// number of records opened until then. It is displayed as one sentence.
///
/// ```
/// use icon_cache::{check, lookup, Refusal, FARM_CACHE};
///
/// let refusal = lookup(FARM_CACHE, b"pig").unwrap_err();
/// assert_eq!(refusal.number, Refusal::ABSENT);
/// assert_eq!(refusal.to_string(), "there is no icon of this name");
///
/// // "cow" is the last string; without its zero byte it runs off the end.
/// let refusal = check(&FARM_CACHE[..125]).unwrap_err();
/// assert_eq!((refusal.number, refusal.place), (17, 56));
/// let sentence = "this name or directory path runs off the end: the cache may be cut short";
/// assert_eq!(refusal.to_string(), sentence);
/// ```
#[derive(Clone, Copy, Debug, PartialEq, Eq)]
pub struct Refusal {
    /// The answer number, 1 to 27 or 30 to 33.
    pub number: u32,
    /// The offset of the fault in the cache, 0 where it has none; from
    /// [`write`](crate::write) and [`Catalogue`](crate::Catalogue) in the catalogue.
    /// With [`BAD_TYPE`](Refusal::BAD_TYPE) alone it is no offset: it is the index of
    /// the type in the words lent.
    pub place: usize,
    /// How many icon records the call opened. It is 0 from
    /// [`directory`](crate::directory), [`Flags`](crate::Flags),
    /// [`notes`](crate::notes), [`write`](crate::write) and
    /// [`Catalogue`](crate::Catalogue), which open none, and from
    /// [`Records`](crate::Records), [`pick`](crate::pick),
    /// [`catalogue_of`](crate::catalogue_of), [`salvage`](crate::salvage()) and
    /// [`squeeze`](crate::squeeze()), which don't count them. From
    /// [`plain_lookup`](crate::plain_lookup) it is the number of records tried, and 0
    /// where the cache or the name is refused.
    pub opened: usize,
}

/// The numbers that callers tell apart.
impl Refusal {
    /// The cache is longer than [`LARGEST`](crate::LARGEST).
    pub const TOO_LARGE: u32 = 2;
    /// The path of a directory is empty, too long or begins with a slash. Other
    /// directories may still be asked for.
    pub const BAD_PATH: u32 = 6;
    /// A chain never ends.
    pub const ENDLESS_CHAIN: u32 = 12;
    /// The words lent to [`raw::lookup`](crate::raw::lookup) are too few.
    pub const NO_ROOM: u32 = 14;
    /// No directory has the index asked for.
    pub const NO_SUCH_DIRECTORY: u32 = 15;
    /// A piece of a directory's path, cut at its slashes, is empty, "." or "..".
    /// Other directories may still be asked for.
    pub const BAD_SEGMENT: u32 = 16;
    /// A name or the path of a directory runs off the end of the cache, as in one
    /// that was cut short: the cache ends before the string's zero byte and before
    /// the string is too long, or the string begins at the end or beyond. Where it is
    /// a path, other directories may still be asked for.
    ///
    /// From [`directory`](crate::directory) it is a path, and from
    /// [`lookup`](crate::lookup), [`Records`](crate::Records) and
    /// [`pick`](crate::pick) a name. From [`check`](crate::check) it is a path if no
    /// record was [opened](Refusal::opened), and else a name.
    ///
    /// ```
    /// use icon_cache::{check, directory, Refusal, FARM_CACHE};
    ///
    /// let name = check(&FARM_CACHE[..125]).unwrap_err();
    /// assert_eq!((name.number, name.opened), (Refusal::CUT_OFF, 3));
    ///
    /// // Of the path "16" one byte is left.
    /// let cut = &FARM_CACHE[..109];
    /// let path = check(cut).unwrap_err();
    /// assert_eq!((path.number, path.opened), (Refusal::CUT_OFF, 0));
    /// assert_eq!(directory(cut, 0), Err(path));
    /// ```
    pub const CUT_OFF: u32 = 17;
    /// A field of a catalogue is cut off, breaks a rule or follows the end; the place is
    /// its first byte, and [`Field::at`](crate::Field::at) tells which it is. Or the
    /// bucket count is not 1 to 4,096, and the place is 0: of a field it is so only if
    /// the catalogue has less than 2 bytes.
    pub const BAD_FIELD: u32 = 18;
    /// The cache would be longer than [`LARGEST`](crate::LARGEST), or, in
    /// [`raw`](crate::raw), too few bytes or words are lent.
    pub const DOES_NOT_FIT: u32 = 19;
    /// A name was used before. The place is its first byte in the catalogue, or, from
    /// [`catalogue_of`](crate::catalogue_of) and in a row of [`salvage`](crate::salvage),
    /// the field in its record that names it.
    pub const REPEATED_NAME: u32 = 20;
    /// The cache has more than 65,535 icons, or as many could be saved of it, so no
    /// catalogue can list them.
    pub const TOO_MANY_ICONS: u32 = 21;
    /// A part of an image's data is not wholly inside the cache, or is a list of more than
    /// 1,024 entries. The place is the field that names it, and from
    /// [`notes`](crate::notes) 0 if it is the image data that was asked for.
    pub const BAD_IMAGE_DATA: u32 = 22;
    /// The pixel data of an image is of an unknown type. The place is the field that
    /// names the pixel data.
    pub const BAD_PIXEL_TYPE: u32 = 23;
    /// The language or the text of a display name is empty, longer than 255 bytes or
    /// runs off the end. The place is the field that names it; other entries may still be
    /// asked for.
    pub const BAD_DISPLAY_NAME: u32 = 24;
    /// A cache to be squeezed has more than 4,096 buckets, and the place is 4, or an image
    /// with data, and the place is that image.
    pub const NOT_WRITTEN: u32 = 25;
    /// The position names no bucket, or its count is more than the cache's
    /// length less 11.
    pub const BAD_POSITION: u32 = 26;
    /// The sum of the flags is above 15, or, in [`raw`](crate::raw), the numbering
    /// is unknown.
    pub const BAD_FLAGS: u32 = 27;
    /// No record bears the name asked for.
    pub const ABSENT: u32 = 30;
    /// The words lent to [`pick`](crate::pick) are not six for each directory of the
    /// cache.
    pub const WRONG_WORD_COUNT: u32 = 31;
    /// A type in the words lent to [`pick`](crate::pick) is above 2. The place is its
    /// index in these words, six times that of the directory.
    pub const BAD_TYPE: u32 = 32;
    /// The image has no such note, or no entry of this number.
    pub const NO_NOTE: u32 = 33;
}

impl fmt::Display for Refusal {
    fn fmt(&self, f: &mut fmt::Formatter<'_>) -> fmt::Result {
        f.write_str(match self.number {
            1 => "the cache is shorter than its header",
            2 => "the cache is longer than 16,777,216 bytes",
            3 => "the cache is not of version 1.0",
            4 => "the directory list leaves the cache or is too long",
            5 => "the hash leaves the cache or has no buckets",
            6 => "this directory path is empty, too long or begins with a slash",
            7 => "the record that this field names leaves the cache",
            8 => "this name is empty or too long",
            9 => "this name stands in another bucket than its hash gives",
            10 => "this image list leaves the cache or is too long",
            11 => "the directory index or the flags of this image are not allowed",
            12 => "the chain of this bucket never ends",
            13 => "the name asked for is empty, too long or holds a zero byte",
            14 => "there is too little room for the images",
            15 => "there is no directory of this index",
            16 => "a piece of this directory path, cut at its slashes, is empty, \".\" or \"..\"",
            17 => "this name or directory path runs off the end: the cache may be cut short",
            18 => "this field of the catalogue is cut off, breaks a rule or follows the end, or the bucket count is not 1 to 4,096",
            19 => "there is too little room, or the cache would be longer than 16,777,216 bytes",
            20 => "this name was used before",
            21 => "there are more than 65,535 icons",
            22 => "the part of an image's data that this field names leaves the cache, or is a list that is too long",
            23 => "the pixel data that this field names is of an unknown type",
            24 => "this display name or its language is empty, too long or runs off the end",
            25 => "the cache has more than 4,096 buckets, or an image with data, which is not written",
            26 => "the position asked for names no bucket, or its count is too large",
            27 => "the flags are above 15, or their numbering is unknown",
            30 => "there is no icon of this name",
            31 => "there are not six words for each directory",
            32 => "the type of a directory is above 2",
            33 => "the image has no such note",
            _ => "the answer number is unknown",
        })
    }
}

impl Error for Refusal {}

#[cfg(test)]
mod tests {
    use super::Refusal;
    use std::collections::HashSet;

    fn sentence(number: u32) -> String {
        let refusal = Refusal {
            number,
            place: 0,
            opened: 0,
        };
        refusal.to_string()
    }

    #[test]
    fn the_named_numbers_have_their_sentence() {
        for (number, words) in [
            (Refusal::TOO_LARGE, "longer than"),
            (Refusal::BAD_PATH, "this directory path is empty"),
            (Refusal::ENDLESS_CHAIN, "never ends"),
            (Refusal::NO_ROOM, "too little room"),
            (Refusal::NO_SUCH_DIRECTORY, "no directory"),
            (Refusal::BAD_SEGMENT, "a piece of this directory path"),
            (Refusal::CUT_OFF, "runs off the end"),
            (Refusal::BAD_FIELD, "this field of the catalogue"),
            (Refusal::DOES_NOT_FIT, "too little room, or"),
            (Refusal::REPEATED_NAME, "used before"),
            (Refusal::TOO_MANY_ICONS, "more than 65,535 icons"),
            (Refusal::BAD_IMAGE_DATA, "an image's data"),
            (Refusal::BAD_PIXEL_TYPE, "of an unknown type"),
            (Refusal::BAD_DISPLAY_NAME, "this display name"),
            (Refusal::NOT_WRITTEN, "more than 4,096 buckets"),
            (Refusal::BAD_POSITION, "the position"),
            (Refusal::BAD_FLAGS, "the flags are above 15"),
            (Refusal::ABSENT, "no icon"),
            (Refusal::WRONG_WORD_COUNT, "not six words"),
            (Refusal::BAD_TYPE, "the type of a directory"),
            (Refusal::NO_NOTE, "no such note"),
        ] {
            assert!(sentence(number).contains(words), "{number}");
        }
    }

    #[test]
    fn each_number_has_its_own_sentence() {
        let numbers = (1..=27).chain(30..=33);
        let known: HashSet<_> = numbers.map(sentence).collect();
        assert_eq!(known.len(), 31);
        assert!(!known.contains(&sentence(0)));
    }
}
