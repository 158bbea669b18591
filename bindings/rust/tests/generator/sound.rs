//! Sound caches at random.
//!
//! The parts are placed on a canvas one after another, each when all that it
//! points to has its place: strings, image data, image lists, chains from their last
//! record back, hash, directory list, header. A part may lie on bytes that are taken
//! if they are the bytes it needs; so parts overlap and the cache stays sound.

mod notes;

use super::{name_in_bucket, numbers, Random, END, VERSION};
use crate::reader;
use icon_cache::FARM_CACHE;

/// A sound cache and what its maker knows of it.
pub struct Sound {
    pub bytes: Vec<u8>,
    pub directory_list: usize,
    pub directories: usize,
    pub hash: usize,
    /// The records of each bucket, in chain order.
    pub chains: Vec<Vec<usize>>,
    pub image_lists: Vec<usize>,
    pub names: Vec<Vec<u8>>,
    /// Whether its image data is sound too. Else its data offsets are any numbers.
    pub long: bool,
}

impl Sound {
    pub fn make(random: &mut Random) -> Sound {
        Maker::new(random).make()
    }

    /// The farm cache of the paper.
    pub fn farm() -> Sound {
        Sound {
            bytes: FARM_CACHE.to_vec(),
            directory_list: 96,
            directories: 2,
            hash: 12,
            chains: vec![vec![28, 40], vec![], vec![52]],
            image_lists: vec![64, 76],
            names: [b"hen", b"oat", b"cow"].map(|name| name.to_vec()).into(),
            long: true,
        }
    }

    pub fn buckets(&self) -> usize {
        self.chains.len()
    }

    pub fn bucket_field(&self, bucket: usize) -> usize {
        self.hash + 4 + 4 * bucket
    }

    pub fn path_field(&self, index: usize) -> usize {
        self.directory_list + 4 + 4 * index
    }

    /// All records with their buckets.
    pub fn records(&self) -> Vec<(usize, usize)> {
        let chains = self.chains.iter().enumerate();
        let records = chains.flat_map(|(bucket, chain)| chain.iter().map(move |&r| (bucket, r)));
        records.collect()
    }

    /// The number of images in a list.
    pub fn images(&self, list: usize) -> usize {
        super::u32_at(&self.bytes, list) as usize
    }
}

/// Sizes of one cache, most of them small.
struct Sizes {
    directories: usize,
    buckets: usize,
    icons: usize,
}

fn sizes(random: &mut Random) -> Sizes {
    let directories = match random.below(12) {
        0..=2 => 0,
        3..=10 => random.between(1, 4),
        _ => random.between(1, 60),
    };
    // Now and then a long chain: few buckets and many icons.
    if random.one_in(40) {
        return Sizes {
            directories,
            buckets: random.between(1, 2),
            icons: random.between(65, 150),
        };
    }
    let buckets = match random.below(16) {
        0..=9 => random.between(1, 4),
        10..=14 => random.between(1, 20),
        _ => random.between(1, 200),
    };
    let icons = match random.below(8) {
        0..=6 => random.below(9),
        _ => random.below(40),
    };
    Sizes {
        directories,
        buckets,
        icons,
    }
}

struct Maker<'a> {
    random: &'a mut Random,
    sizes: Sizes,
    canvas: Canvas,
    /// Strings placed so far, with their offsets.
    strings: Vec<(usize, Vec<u8>)>,
    image_lists: Vec<usize>,
    notes: notes::Placed,
    /// Whether the image data is to be sound.
    long: bool,
}

impl<'a> Maker<'a> {
    fn new(random: &'a mut Random) -> Self {
        let sizes = sizes(random);
        // With room from the start the parts lie in any order, else in a row.
        let room = 40 * sizes.icons + 4 * sizes.buckets + 16 * sizes.directories;
        let room = [0, room / 2, room, room + room / 2][random.below(4)];
        Maker {
            long: !random.one_in(5),
            random,
            sizes,
            canvas: Canvas::new(12 + room),
            strings: Vec::new(),
            image_lists: Vec::new(),
            notes: notes::Placed::default(),
        }
    }

    fn make(mut self) -> Sound {
        let paths: Vec<usize> = (0..self.sizes.directories).map(|_| self.path()).collect();
        let icons: Vec<(usize, Vec<u8>, usize)> = (0..self.sizes.icons)
            .map(|_| {
                let (offset, name) = self.name();
                (offset, name, self.image_list())
            })
            .collect();

        let mut chains = vec![Vec::new(); self.sizes.buckets];
        let mut fields = vec![END; self.sizes.buckets];
        for (name_offset, name, image_list) in &icons {
            let bucket = reader::hash(name) as usize % self.sizes.buckets;
            let bytes = numbers(&[fields[bucket], *name_offset as u32, *image_list as u32]);
            let record = self
                .canvas
                .place_record(self.random, &bytes, &chains[bucket]);
            fields[bucket] = record as u32;
            chains[bucket].insert(0, record);
        }

        let hash = self.table(&fields);
        let paths: Vec<u32> = paths.iter().map(|&path| path as u32).collect();
        let directory_list = self.table(&paths);
        let header = numbers(&[VERSION, hash as u32, directory_list as u32]);
        Sound {
            bytes: self.canvas.finish(self.random, &header),
            directory_list,
            directories: paths.len(),
            hash,
            chains,
            image_lists: self.image_lists,
            names: icons.into_iter().map(|(_, name, _)| name).collect(),
            long: self.long,
        }
    }

    /// A count and its entries.
    fn table(&mut self, entries: &[u32]) -> usize {
        let count = entries.len() as u32;
        let bytes = numbers(&[&[count], entries].concat());
        self.canvas.place(self.random, &bytes)
    }

    fn path(&mut self) -> usize {
        if let Some((offset, path)) = self.shared_string() {
            if reader::pieces_allowed(&path) {
                return offset;
            }
        }
        let length = self.length(1_023);
        let path = self.random.path(length);
        self.string(path)
    }

    fn name(&mut self) -> (usize, Vec<u8>) {
        if let Some((offset, name)) = self.shared_string() {
            if name.len() <= 255 {
                return (offset, name);
            }
        }
        let name = self.new_name();
        (self.string(name.clone()), name)
    }

    fn new_name(&mut self) -> Vec<u8> {
        let known = self
            .random
            .pick(&self.strings)
            .map(|(_, name)| name.clone());
        let known = known.filter(|name| name.len() < 200);
        match (known, self.random.below(8)) {
            // The same bytes at another place.
            (Some(name), 0) => name,
            // A longer name of the same bucket.
            (Some(name), 1) => {
                let bucket = reader::hash(&name) as usize % self.sizes.buckets;
                name_in_bucket(self.random, &name, bucket, self.sizes.buckets)
            }
            _ => {
                let length = self.length(255);
                self.random.text(length)
            }
        }
    }

    /// Mostly short, now and then the longest allowed.
    fn length(&mut self, longest: usize) -> usize {
        if self.random.one_in(80) {
            longest
        } else {
            self.random.between(1, 10)
        }
    }

    /// Now and then a string that is there, or the end of one.
    fn shared_string(&mut self) -> Option<(usize, Vec<u8>)> {
        if !self.random.one_in(4) {
            return None;
        }
        let (offset, string) = self.random.pick(&self.strings)?;
        let from = if self.random.one_in(2) {
            0
        } else {
            self.random.below(string.len())
        };
        Some((offset + from, string[from..].to_vec()))
    }

    fn string(&mut self, string: Vec<u8>) -> usize {
        let ended = [string.as_slice(), &[0]].concat();
        let offset = self.canvas.place(self.random, &ended);
        self.strings.push((offset, string));
        offset
    }

    fn image_list(&mut self) -> usize {
        if self.random.one_in(3) {
            if let Some(&list) = self.random.pick(&self.image_lists) {
                return list;
            }
        }
        let count = match self.random.below(20) {
            0 => 0,
            1 => self.random.below(20),
            _ => self.random.between(1, 3),
        };
        let mut fields = vec![count as u32];
        for _ in 0..count {
            let image = self.image();
            fields.extend(image);
        }
        // The data offset of an image may be the count of a second list, made
        // of images after it.
        let mut second = None;
        if count > 1 && !self.long && self.random.one_in(4) {
            let image = self.random.below(count - 1);
            fields[2 + 2 * image] = self.random.below(count - image) as u32;
            second = Some(8 + 8 * image);
        }
        let list = self.canvas.place(self.random, &numbers(&fields));
        self.image_lists.push(list);
        self.image_lists.extend(second.map(|inner| list + inner));
        list
    }

    fn image(&mut self) -> [u32; 2] {
        let index = match self.sizes.directories {
            0 => 0xFFFF,
            n => self.random.below(n) as u32,
        };
        let flags = self.random.below(16) as u32;
        let data = match self.random.below(4) {
            0 | 1 if self.long => self.image_data(),
            0 => self.random.next() as u32,
            1 => END,
            _ => 0,
        };
        [index << 16 | flags, data]
    }
}

/// The bytes of a cache in the making; some are not taken yet.
struct Canvas {
    bytes: Vec<Option<u8>>,
}

impl Canvas {
    fn new(length: usize) -> Self {
        let mut bytes = vec![None; length];
        for (byte, value) in bytes.iter_mut().zip(VERSION.to_be_bytes()) {
            *byte = Some(value);
        }
        Canvas { bytes }
    }

    /// Finds a place for a part and puts it there.
    fn place(&mut self, random: &mut Random, part: &[u8]) -> usize {
        self.place_record(random, part, &[])
    }

    /// Like `place`, but at none of these offsets: a chain meets each once.
    fn place_record(&mut self, random: &mut Random, part: &[u8], chain: &[usize]) -> usize {
        let place = if random.one_in(6) {
            self.overlap(random, part, chain)
        } else {
            self.gap(random, part)
        };
        let place = place.unwrap_or_else(|| self.bytes.len() + self.distance(random));
        self.put(place, part);
        place
    }

    /// A place where the part shares bytes with others.
    fn overlap(&self, random: &mut Random, part: &[u8], chain: &[usize]) -> Option<usize> {
        let length = self.bytes.len();
        let start = random.below(length);
        let mut places = (0..length).map(|i| (start + i) % length);
        places.find(|&place| {
            let mut bytes = self.bytes[place..].iter().take(part.len());
            self.fits(place, part) && bytes.any(Option::is_some) && !chain.contains(&place)
        })
    }

    /// A place where nothing lies yet.
    fn gap(&self, random: &mut Random, part: &[u8]) -> Option<usize> {
        let last = self.bytes.len().checked_sub(part.len())?;
        let mut places = (0..6).map(|_| random.between(0, last));
        places.find(|&place| {
            let bytes = &self.bytes[place..][..part.len()];
            place >= 12 && bytes.iter().all(Option::is_none)
        })
    }

    fn distance(&self, random: &mut Random) -> usize {
        if random.one_in(3) {
            random.below(9)
        } else {
            0
        }
    }

    /// No byte of the part meets another value. The two offsets in the header
    /// are not known yet, so nothing may lie on them.
    fn fits(&self, place: usize, part: &[u8]) -> bool {
        let clear_of_offsets = place >= 12 || place + part.len() <= 4;
        let mut bytes = self.bytes[place..].iter().zip(part);
        clear_of_offsets && bytes.all(|(byte, value)| byte.is_none_or(|byte| byte == *value))
    }

    fn put(&mut self, place: usize, part: &[u8]) {
        if self.bytes.len() < place + part.len() {
            self.bytes.resize(place + part.len(), None);
        }
        for (byte, value) in self.bytes[place..].iter_mut().zip(part) {
            *byte = Some(*value);
        }
    }

    /// Puts the header, fills the gaps, and mostly ends with the last part.
    fn finish(mut self, random: &mut Random, header: &[u8]) -> Vec<u8> {
        self.put(0, header);
        if !random.one_in(3) {
            let last = self.bytes.iter().rposition(Option::is_some);
            self.bytes.truncate(last.map_or(0, |last| last + 1));
        }
        let filling = random.below(4);
        let mut fill = || match filling {
            0 => 0,
            1 => 0xFF,
            _ => random.next() as u8,
        };
        let bytes = self.bytes.into_iter();
        bytes.map(|byte| byte.unwrap_or_else(&mut fill)).collect()
    }
}
