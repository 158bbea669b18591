mod error;
mod key_file;

pub use error::{ThemeError, ThemeFault};

use crate::{directory, Refusal, WORDS_PER_DIRECTORY};
use key_file::{Group, KeyFile};
use std::collections::HashMap;
use std::str;

/// The six words of a directory: type, Size, Scale, MinSize, MaxSize, Threshold.
type Words = [u32; WORDS_PER_DIRECTORY];

const FIXED: u32 = 0;
const SCALABLE: u32 = 1;
const THRESHOLD: u32 = 2;

/// The group that an `index.theme` begins with.
const ICON_THEME: &str = "Icon Theme";

/// What a theme's `index.theme` says of its directories: for which sizes and which
/// scale each is made. [`pick`](crate::pick) takes it as words.
///
/// This reader is plain Rust: it is tested, and not proved as the library is. It
/// doesn't follow `Inherits`, so icons of other themes are the caller's to look for.
/// And where no directory fits, `pick` doesn't take the nearest size.
///
/// ```
/// use icon_cache::{pick, Theme, FARM_CACHE};
///
/// let theme = Theme::parse(b"\
/// [Icon Theme]
/// Directories=16,64
///
/// [16]
/// Size=16
/// Type=Fixed
///
/// [64]
/// Size=64
/// MinSize=32
/// MaxSize=256
/// Type=Scalable
/// ")?;
/// let words = theme.words(FARM_CACHE)?;
/// let picked = pick(FARM_CACHE, b"cow", 48, 1, &words)?.unwrap();
/// assert_eq!(picked.image.directory, 1);
/// # Ok::<(), Box<dyn std::error::Error>>(())
/// ```
#[derive(Clone, Debug)]
pub struct Theme {
    /// The directories that are listed and have a group.
    directories: HashMap<String, Words>,
}

impl Theme {
    /// The words of a directory that the theme doesn't describe: Scalable from 1 to
    /// 0, which is no size at all. So an image there is never picked, as nothing is
    /// known of it.
    pub const FITS_NOTHING: [u32; WORDS_PER_DIRECTORY] = [SCALABLE, 0, 0, 1, 0, 0];

    /// Reads an `index.theme`, as the icon theme specification has it.
    ///
    /// The text is UTF-8: groups such as `[Icon Theme]`, which must be the first,
    /// lines `Key=Value`, blank lines, and comments that begin with `#`. White space
    /// at the ends of a line and around the `=` doesn't count. A group that is given
    /// twice is one, and of a key that is given twice the last value counts, as in
    /// GLib. A backslash stands for itself.
    ///
    /// `Directories` and, if it is there, `ScaledDirectories` list directories,
    /// separated by commas. A slash at the end of a directory's name doesn't count.
    /// The group of the same name has these keys:
    ///
    /// | Key | | Otherwise |
    /// |---|---|---|
    /// | `Size` | a number | the file is refused |
    /// | `Scale` | a number | 1 |
    /// | `Type` | `Fixed`, `Scalable` or `Threshold` | `Threshold` |
    /// | `MinSize`, `MaxSize` | a number | the Size |
    /// | `Threshold` | a number | 2 |
    ///
    /// Numbers are decimal, from 0 to 4294967295, and are judged whether the type
    /// uses them or not. Any other type counts as `Threshold`, as in GTK. All other
    /// keys, `Name[de]` among them, and the keys of all other groups may have any
    /// value.
    ///
    /// ```
    /// use icon_cache::{Theme, ThemeFault};
    ///
    /// let error = Theme::parse(b"[Icon Theme]\nDirectories=16\n[16]\nSize=big\n").unwrap_err();
    /// assert_eq!((error.line, error.fault), (4, ThemeFault::BadNumber));
    /// ```
    pub fn parse(bytes: &[u8]) -> Result<Theme, ThemeError> {
        let file = KeyFile::parse(text(bytes)?, ICON_THEME)?;
        // Without it there is no group at all.
        let theme = file.group(ICON_THEME);
        let theme = theme.ok_or(ThemeFault::OtherFirstGroup.at(1))?;
        let mut directories = HashMap::new();
        for path in listed(theme)? {
            if let Some(group) = file.group(path) {
                directories.insert(path.to_owned(), words(group)?);
            }
        }
        Ok(Theme { directories })
    }

    /// The words that [`pick`](crate::pick) takes: six for each directory of the
    /// cache, in its order. A directory that is not listed or has no group gets
    /// [`FITS_NOTHING`](Theme::FITS_NOTHING), and so does one whose path is refused.
    /// If the header of the cache is refused, that is the refusal.
    ///
    /// ```
    /// use icon_cache::{Theme, FARM_CACHE};
    ///
    /// let theme = Theme::parse(b"[Icon Theme]\nDirectories=64\n[64]\nSize=64\n")?;
    /// let words = theme.words(FARM_CACHE)?;
    /// assert_eq!(words[..6], Theme::FITS_NOTHING);
    /// assert_eq!(words[6..], [2, 64, 1, 64, 64, 2]);
    /// # Ok::<(), Box<dyn std::error::Error>>(())
    /// ```
    pub fn words(&self, cache: &[u8]) -> Result<Vec<u32>, Refusal> {
        let mut words = Vec::new();
        for index in 0.. {
            match directory(cache, index) {
                Ok(path) => words.extend(self.words_of(path)),
                Err(refusal) => match refusal.number {
                    Refusal::BAD_PATH | Refusal::BAD_SEGMENT | Refusal::CUT_OFF => {
                        words.extend(Self::FITS_NOTHING)
                    }
                    Refusal::NO_SUCH_DIRECTORY => break,
                    _ => return Err(refusal),
                },
            }
        }
        Ok(words)
    }

    fn words_of(&self, path: &[u8]) -> Words {
        let path = str::from_utf8(path).ok();
        let words = path.and_then(|path| self.directories.get(path));
        *words.unwrap_or(&Self::FITS_NOTHING)
    }
}

fn text(bytes: &[u8]) -> Result<&str, ThemeError> {
    str::from_utf8(bytes).map_err(|error| {
        let before = &bytes[..error.valid_up_to()];
        let ends = before.iter().filter(|byte| **byte == b'\n');
        ThemeFault::NotUtf8.at(ends.count() + 1)
    })
}

/// The directories that a theme lists, of either key.
fn listed<'a>(theme: &Group<'a>) -> Result<impl Iterator<Item = &'a str>, ThemeError> {
    let directories = theme.value("Directories");
    let directories = directories.ok_or(ThemeFault::NoDirectories.at(theme.line))?;
    let lists = [Some(directories), theme.value("ScaledDirectories")];
    let entries = lists.into_iter().flatten();
    let entries = entries.flat_map(|list| list.text.split(','));
    let paths = entries.map(|entry| entry.trim_ascii().trim_end_matches('/'));
    Ok(paths.filter(|path| !path.is_empty()))
}

/// The words of a directory that has this group.
fn words(group: &Group) -> Result<Words, ThemeError> {
    let size = number(group, "Size")?;
    let size = size.ok_or(ThemeFault::NoSize.at(group.line))?;
    Ok([
        directory_type(group),
        size,
        number(group, "Scale")?.unwrap_or(1),
        number(group, "MinSize")?.unwrap_or(size),
        number(group, "MaxSize")?.unwrap_or(size),
        number(group, "Threshold")?.unwrap_or(2),
    ])
}

/// Themes write `fixed` and the like, which GTK takes for Threshold.
fn directory_type(group: &Group) -> u32 {
    match group.value("Type").map(|value| value.text) {
        Some("Fixed") => FIXED,
        Some("Scalable") => SCALABLE,
        _ => THRESHOLD,
    }
}

/// The number of a key, if the group has it. A sign is no part of a number.
fn number(group: &Group, key: &str) -> Result<Option<u32>, ThemeError> {
    let Some(value) = group.value(key) else {
        return Ok(None);
    };
    let is_number = value.text.bytes().all(|digit| digit.is_ascii_digit());
    let number = value.text.parse().ok().filter(|_| is_number);
    match number {
        Some(number) => Ok(Some(number)),
        None => Err(ThemeFault::BadNumber.at(value.line)),
    }
}
