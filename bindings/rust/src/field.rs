use std::fmt;

/// A field of a catalogue. Directories, icons and the images of an icon are counted
/// from 0 on.
#[derive(Clone, Copy, Debug, PartialEq, Eq)]
pub enum Field {
    /// How many directories there are.
    DirectoryCount,
    /// How long a path is.
    PathLength {
        /// The index of the directory.
        directory: usize,
    },
    /// A path.
    Path {
        /// The index of the directory.
        directory: usize,
    },
    /// How many icons there are.
    IconCount,
    /// How long a name is.
    NameLength {
        /// The icon.
        icon: usize,
    },
    /// A name.
    Name {
        /// The icon.
        icon: usize,
    },
    /// How many images an icon has.
    ImageCount {
        /// The icon.
        icon: usize,
    },
    /// An image.
    Image {
        /// The icon.
        icon: usize,
        /// The image, one of the icon's.
        image: usize,
    },
    /// What follows the last icon.
    Extra,
}

/// Where a catalogue is read, on the way to the field that begins at a wanted place.
struct Reading<'a> {
    bytes: &'a [u8],
    place: usize,
    wanted: usize,
}

/// The number that a field holds, as its reading goes on; or, at the wanted place or
/// beyond, the field and its width.
type Read = Result<usize, (Field, usize)>;

impl Reading<'_> {
    /// Of a text, or of an image, nobody wants the number.
    fn pass(&mut self, field: Field, width: usize) -> Read {
        if self.place >= self.wanted {
            return Err((field, width));
        }
        let held = self.bytes[self.place..].iter().take(width);
        self.place += width;
        Ok(held.fold(0, |number, &byte| number << 8 | usize::from(byte)))
    }

    fn pass_all(&mut self) -> Read {
        let directories = self.pass(Field::DirectoryCount, 2)?;
        for directory in 0..directories {
            let length = self.pass(Field::PathLength { directory }, 2)?;
            self.pass(Field::Path { directory }, length)?;
        }
        let icons = self.pass(Field::IconCount, 2)?;
        for icon in 0..icons {
            let length = self.pass(Field::NameLength { icon }, 1)?;
            self.pass(Field::Name { icon }, length)?;
            let images = self.pass(Field::ImageCount { icon }, 2)?;
            for image in 0..images {
                self.pass(Field::Image { icon, image }, 8)?;
            }
        }
        self.pass(Field::Extra, 1)
    }
}

impl Field {
    /// The field of a catalogue that begins at a place, with its width in bytes; `None`
    /// if none does. Where [`write`](crate::write) refuses a catalogue, this tells the
    /// field. One that is wider than what is left of the catalogue is cut off.
    ///
    /// ```
    /// use icon_cache::{write, Field};
    ///
    /// // The path is two bytes long, and one of them is there.
    /// let catalogue = b"\0\x01\0\x021";
    /// let place = write(catalogue, 1).unwrap_err().place;
    /// let (field, width) = Field::at(catalogue, place).unwrap();
    /// assert_eq!((field, width), (Field::Path { directory: 0 }, 2));
    /// assert_eq!(field.to_string(), "the path of directory 0");
    /// assert!(place + width > catalogue.len());
    /// ```
    pub fn at(catalogue: &[u8], place: usize) -> Option<(Field, usize)> {
        if place > catalogue.len() {
            return None;
        }
        let mut reading = Reading {
            bytes: catalogue,
            place: 0,
            wanted: place,
        };
        let (field, width) = reading.pass_all().err()?;
        let is_there = field != Field::Extra || place < catalogue.len();
        (reading.place == place && is_there).then_some((field, width))
    }
}

impl fmt::Display for Field {
    fn fmt(&self, f: &mut fmt::Formatter<'_>) -> fmt::Result {
        match self {
            Field::DirectoryCount => f.write_str("the count of directories"),
            Field::PathLength { directory } => {
                write!(f, "the length of the path of directory {directory}")
            }
            Field::Path { directory } => write!(f, "the path of directory {directory}"),
            Field::IconCount => f.write_str("the count of icons"),
            Field::NameLength { icon } => write!(f, "the length of the name of icon {icon}"),
            Field::Name { icon } => write!(f, "the name of icon {icon}"),
            Field::ImageCount { icon } => write!(f, "the image count of icon {icon}"),
            Field::Image { icon, image } => write!(f, "image {image} of icon {icon}"),
            Field::Extra => f.write_str("what follows the last icon"),
        }
    }
}
