use crate::{raw, Refusal};
use std::ops::BitOr;

/// How a generator numbers the flags of an image. Both numberings are written
/// under version 1.0, and a cache doesn't say which it has.
///
/// | | bitmap suffix | XPM suffix | SVG suffix | icon file |
/// |---|---|---|---|---|
/// | [`Freedesktop`](Numbering::Freedesktop) | 1 | 2 | 4 | 8 |
/// | [`Gtk`](Numbering::Gtk) | 4 | 1 | 2 | 8 |
#[derive(Clone, Copy, Debug, Default, PartialEq, Eq, Hash)]
pub enum Numbering {
    /// The one that the freedesktop note on the format prints.
    #[default]
    Freedesktop,
    /// The one that GTK's generator, `gtk-update-icon-cache`, writes.
    Gtk,
}

impl Numbering {
    /// The number that names it in [`raw`].
    fn number(self) -> u32 {
        match self {
            Numbering::Freedesktop => 0,
            Numbering::Gtk => 1,
        }
    }
}

/// The flags of an image: which files it has. They are the same flags whichever
/// numbering they were read in.
///
/// ```
/// use icon_cache::{lookup, Flags, Numbering, FARM_CACHE};
///
/// let cow = lookup(FARM_CACHE, b"cow")?;
/// let flags = Flags::from_raw(cow.images[1].flags, Numbering::Freedesktop)?;
/// assert_eq!(flags, Flags::SVG_SUFFIX);
/// assert_eq!(flags.to_raw(Numbering::Gtk), 2);
/// # Ok::<(), icon_cache::Refusal>(())
/// ```
#[derive(Clone, Copy, Debug, Default, PartialEq, Eq, Hash)]
pub struct Flags {
    /// In the numbering of the freedesktop note, 0 to 15.
    sum: u16,
}

impl Flags {
    /// There is a bitmap file, such as PNG.
    pub const BITMAP_SUFFIX: Flags = Flags { sum: 1 };
    /// There is an XPM file.
    pub const XPM_SUFFIX: Flags = Flags { sum: 2 };
    /// There is an SVG file.
    pub const SVG_SUFFIX: Flags = Flags { sum: 4 };
    /// There is an icon file (`.icon`), which describes the image.
    pub const ICON_FILE: Flags = Flags { sum: 8 };

    /// The flags that a sum stands for in a numbering. A sum above 15 is refused
    /// with [`BAD_FLAGS`](Refusal::BAD_FLAGS); that of an image found never is.
    ///
    /// ```
    /// use icon_cache::{Flags, Numbering, Refusal};
    ///
    /// let flags = Flags::from_raw(9, Numbering::Gtk).unwrap();
    /// assert_eq!(flags, Flags::XPM_SUFFIX | Flags::ICON_FILE);
    ///
    /// let refusal = Flags::from_raw(16, Numbering::Gtk).unwrap_err();
    /// assert_eq!(refusal.number, Refusal::BAD_FLAGS);
    /// ```
    pub fn from_raw(raw: u16, numbering: Numbering) -> Result<Flags, Refusal> {
        let answer = raw::flags_in(raw, numbering.number());
        match answer.number {
            0 => Ok(Flags { sum: answer.flags }),
            number => Err(Refusal {
                number,
                place: 0,
                opened: 0,
            }),
        }
    }

    /// The sum that stands for them in a numbering, 0 to 15. What it was read
    /// from comes back in the same numbering.
    pub fn to_raw(self, numbering: Numbering) -> u16 {
        raw::flags_out(self.sum, numbering.number()).flags
    }

    /// Whether all of these are set.
    ///
    /// ```
    /// use icon_cache::{Flags, Numbering};
    ///
    /// let flags = Flags::from_raw(12, Numbering::Gtk).unwrap();
    /// assert!(flags.contains(Flags::BITMAP_SUFFIX));
    /// assert!(!flags.contains(Flags::SVG_SUFFIX));
    /// ```
    pub fn contains(self, flags: Flags) -> bool {
        self.sum & flags.sum == flags.sum
    }
}

impl BitOr for Flags {
    type Output = Flags;

    fn bitor(self, other: Flags) -> Flags {
        Flags {
            sum: self.sum | other.sum,
        }
    }
}
