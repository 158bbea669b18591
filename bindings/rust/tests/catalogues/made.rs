//! Makes catalogues at random, good ones and such with one bad field.

use crate::generator::Random;
use std::collections::HashSet;

/// What a field is.
#[derive(Clone, Copy, Debug, PartialEq, Eq, Hash)]
pub enum Kind {
    DirectoryCount,
    PathLength,
    Path,
    IconCount,
    NameLength,
    Name,
    ImageCount,
    Image,
}

pub const KINDS: [Kind; 8] = [
    Kind::DirectoryCount,
    Kind::PathLength,
    Kind::Path,
    Kind::IconCount,
    Kind::NameLength,
    Kind::Name,
    Kind::ImageCount,
    Kind::Image,
];

#[derive(Clone, Copy)]
pub struct Field {
    pub kind: Kind,
    pub place: usize,
    pub width: usize,
}

/// A good catalogue, with its fields in order.
pub struct Made {
    pub bytes: Vec<u8>,
    pub fields: Vec<Field>,
    pub names: Vec<Vec<u8>>,
    pub directories: usize,
}

impl Made {
    pub fn new() -> Made {
        Made {
            bytes: Vec::new(),
            fields: Vec::new(),
            names: Vec::new(),
            directories: 0,
        }
    }

    pub fn field(&mut self, kind: Kind, bytes: &[u8]) {
        let place = self.bytes.len();
        let width = bytes.len();
        self.fields.push(Field { kind, place, width });
        self.bytes.extend(bytes);
    }

    fn u16(&mut self, kind: Kind, number: usize) {
        self.field(kind, &(number as u16).to_be_bytes());
    }

    pub fn paths(&mut self, paths: &[Vec<u8>]) {
        self.directories = paths.len();
        self.u16(Kind::DirectoryCount, paths.len());
        for path in paths {
            self.u16(Kind::PathLength, path.len());
            self.field(Kind::Path, path);
        }
    }

    pub fn icon_count(&mut self, count: usize) {
        self.u16(Kind::IconCount, count);
    }

    pub fn icon(&mut self, name: &[u8], images: &[[u8; 8]]) {
        self.field(Kind::NameLength, &[name.len() as u8]);
        self.field(Kind::Name, name);
        self.u16(Kind::ImageCount, images.len());
        for image in images {
            self.field(Kind::Image, image);
        }
        self.names.push(name.to_vec());
    }

    /// A few paths and icons; now and then one is as long as it may be.
    pub fn at_random(random: &mut Random) -> Made {
        let mut made = Made::new();
        let paths: Vec<_> = (0..random.below(4))
            .map(|_| {
                let length = text_length(random, 1_023);
                random.path(length)
            })
            .collect();
        made.paths(&paths);
        let count = random.below(7);
        made.icon_count(count);
        let mut used = HashSet::new();
        while made.names.len() < count {
            let length = text_length(random, 255);
            let name = random.text(length);
            if used.insert(name.clone()) {
                let images = images(random, paths.len());
                made.icon(&name, &images);
            }
        }
        made
    }

    /// The catalogue with one field of this kind cut off, and the place of that.
    pub fn cut(&self, random: &mut Random, kind: Kind) -> Option<(Vec<u8>, usize)> {
        let field = self.one(random, kind)?;
        let end = field.place + random.below(field.width);
        Some((self.bytes[..end].to_vec(), field.place))
    }

    /// The catalogue with one field of this kind that breaks a rule by itself, and the
    /// place of that. The counts of directories and icons break none.
    pub fn broken(&self, random: &mut Random, kind: Kind) -> Option<(Vec<u8>, usize)> {
        let Field { place, width, .. } = self.one(random, kind)?;
        let mut bytes = self.bytes.clone();
        let field = &mut bytes[place..][..width];
        match kind {
            Kind::PathLength => {
                let lengths: [u16; 4] = [0, 1_024, 0x8001, 0xFFFF];
                field.copy_from_slice(&random.pick(&lengths)?.to_be_bytes());
            }
            Kind::Path => break_path(random, field),
            Kind::NameLength => field[0] = 0,
            Kind::Name => field[random.below(width)] = 0,
            Kind::ImageCount => {
                let counts: [u16; 3] = [1_025, 0x8000, 0xFFFF];
                field.copy_from_slice(&random.pick(&counts)?.to_be_bytes());
            }
            Kind::Image => break_image(random, field, self.directories),
            Kind::DirectoryCount | Kind::IconCount => return None,
        }
        Some((bytes, place))
    }

    fn one(&self, random: &mut Random, kind: Kind) -> Option<Field> {
        let fields = self.fields.iter().filter(|field| field.kind == kind);
        random.pick(&fields.copied().collect::<Vec<_>>()).copied()
    }

    /// A name that was used before, where two have one length; with its place.
    pub fn repeated(&self, random: &mut Random) -> Option<(Vec<u8>, usize)> {
        let names = self.fields.iter().filter(|field| field.kind == Kind::Name);
        let names: Vec<Field> = names.copied().collect();
        let later = 1 + random.below(names.len().checked_sub(1).filter(|n| *n > 0)?);
        let earlier = names[random.below(later)];
        let later = names[later];
        if earlier.width != later.width {
            return None;
        }
        let mut bytes = self.bytes.clone();
        bytes.copy_within(earlier.place..earlier.place + earlier.width, later.place);
        Some((bytes, later.place))
    }
}

/// Mostly short.
fn text_length(random: &mut Random, longest: usize) -> usize {
    match random.below(16) {
        0 => longest,
        1 => random.between(1, longest),
        _ => random.between(1, 6),
    }
}

fn images(random: &mut Random, directories: usize) -> Vec<[u8; 8]> {
    let count = match random.below(200) {
        0 => 1_024,
        _ => random.below(4),
    };
    let image = |_| {
        let index = match directories {
            0 => 0xFFFF,
            n => random.below(n) as u16,
        };
        let [i0, i1] = index.to_be_bytes();
        let [d0, d1, d2, d3] = (random.next() as u32).to_be_bytes();
        [i0, i1, 0, random.below(16) as u8, d0, d1, d2, d3]
    };
    (0..count).map(image).collect()
}

/// A zero byte, a slash at the front or at the end, two slashes, or a piece of dots.
fn break_path(random: &mut Random, path: &mut [u8]) {
    let last = path.len() - 1;
    match random.below(5) {
        0 => path[random.below(last + 1)] = 0,
        1 => path[0] = b'/',
        2 => path[last] = b'/',
        3 if last > 1 => path[last - 1..].fill(b'/'),
        _ if last > 2 => {
            let end = path.len();
            path[end - 3..].copy_from_slice(b"/..");
        }
        _ => path.fill(b'/'),
    }
}

/// An index or flags that are just not allowed, or far from it.
fn break_image(random: &mut Random, image: &mut [u8], directories: usize) {
    let indexes = match directories {
        0 => [0, 1, 0xFFFE],
        n => [n as u16, n as u16 + 1, 0xFFFF],
    };
    let flags: [u16; 3] = [16, 0x0100, 0xFFFF];
    if random.one_in(2) {
        image[..2].copy_from_slice(&indexes[random.below(3)].to_be_bytes());
    } else {
        image[2..4].copy_from_slice(&flags[random.below(3)].to_be_bytes());
    }
}
