//! The caches that are measured: real ones and made ones.

use crate::generator::{numbers, put_u32, Random, END, VERSION};
use crate::reader;
use icon_cache::FARM_CACHE;

pub struct Cache {
    pub name: &'static str,
    pub bytes: Vec<u8>,
}

pub fn all() -> Vec<Cache> {
    let cache = |name, bytes: &[u8]| Cache {
        name,
        bytes: bytes.to_vec(),
    };
    vec![
        cache("farm, 126 bytes", FARM_CACHE),
        cache(
            "hicolor, 248 bytes",
            include_bytes!("../../tests/data/hicolor.cache"),
        ),
        cache(
            "Tango, 67 kB",
            include_bytes!("../../tests/data/Tango.cache"),
        ),
        cache("made like Tango, 3 MB", &like_tango().make()),
        cache("455,000 icons, 16.7 MB", &large().make()),
    ]
}

/// The shape of a made cache.
struct Shape {
    icons: usize,
    buckets: usize,
    name_length: usize,
    images: usize,
    /// How many image lists the icons share, where not each has its own.
    shared_lists: Option<usize>,
}

/// Tango has 849 icons in 367 buckets, names of 17 bytes and lists of 5 images,
/// each icon with its own.
fn like_tango() -> Shape {
    Shape {
        icons: 40_000,
        buckets: 17_291,
        name_length: 17,
        images: 5,
        shared_lists: None,
    }
}

/// With lists of their own the icons would not stay below the limit.
fn large() -> Shape {
    Shape {
        icons: 455_000,
        buckets: 151_673,
        name_length: 20,
        images: 1,
        shared_lists: Some(90_000),
    }
}

const DIRECTORIES: usize = 48;

impl Shape {
    /// Header, hash, directory list and paths, shared image lists, then bucket
    /// by bucket each record with its name and list behind it.
    fn make(&self) -> Vec<u8> {
        let mut random = Random::new(1, self.icons as u64);
        let hash = 12;
        let directory_list = hash + 4 + 4 * self.buckets;
        let mut bytes = numbers(&[VERSION, hash as u32, directory_list as u32]);
        bytes.extend(numbers(&[self.buckets as u32]));
        bytes.extend(numbers(&vec![END; self.buckets]));
        push_directories(&mut bytes);
        let shared: Vec<usize> = (0..self.shared_lists.unwrap_or(0))
            .map(|_| self.push_list(&mut random, &mut bytes))
            .collect();
        let chains = self.chains(&mut random);
        for (bucket, names) in chains.iter().enumerate() {
            let mut field = hash + 4 + 4 * bucket;
            for name in names {
                let list = random.pick(&shared).copied();
                field = self.push_icon(&mut random, &mut bytes, field, name, list);
            }
        }
        bytes
    }

    /// The names of each bucket.
    fn chains(&self, random: &mut Random) -> Vec<Vec<Vec<u8>>> {
        let mut chains = vec![Vec::new(); self.buckets];
        for icon in 0..self.icons {
            let name = self.name(random, icon);
            chains[reader::hash(&name) as usize % self.buckets].push(name);
        }
        chains
    }

    /// Letters at random and the number of the icon, so that names differ.
    fn name(&self, random: &mut Random, icon: usize) -> Vec<u8> {
        let number = format!("-{icon:06}");
        let letters = (number.len()..self.name_length).map(|_| b'a' + random.below(26) as u8);
        letters.chain(number.bytes()).collect()
    }

    /// Appends a record that `field` names. Gives the field that names the next.
    fn push_icon(
        &self,
        random: &mut Random,
        bytes: &mut Vec<u8>,
        field: usize,
        name: &[u8],
        list: Option<usize>,
    ) -> usize {
        let record = bytes.len();
        put_u32(bytes, field, record as u32);
        bytes.extend(numbers(&[END, record as u32 + 12, 0]));
        bytes.extend(name);
        bytes.push(0);
        let list = list.unwrap_or_else(|| self.push_list(random, bytes));
        put_u32(bytes, record + 8, list as u32);
        record
    }

    fn push_list(&self, random: &mut Random, bytes: &mut Vec<u8>) -> usize {
        let list = bytes.len();
        bytes.extend(numbers(&[self.images as u32]));
        for _ in 0..self.images {
            let index = random.below(DIRECTORIES) as u32;
            let flags = 1 << random.below(3);
            bytes.extend(numbers(&[index << 16 | flags, 0]));
        }
        list
    }
}

fn push_directories(bytes: &mut Vec<u8>) {
    let list = bytes.len();
    bytes.extend(numbers(&[DIRECTORIES as u32]));
    bytes.extend(numbers(&[0; DIRECTORIES]));
    for index in 0..DIRECTORIES {
        let field = list + 4 + 4 * index;
        let path = bytes.len() as u32;
        put_u32(bytes, field, path);
        bytes.extend(format!("{index}x{index}/apps\0").bytes());
    }
}
