//! Compares what the library squeezes with what a second program squeezes, over crowded,
//! sound, damaged and tangled buffers and over rooms that just do and just don't, and
//! looks whether what comes out is good for the same lookups.

#[allow(dead_code)]
mod generator;
#[allow(dead_code)]
mod reader;

use generator::{damage, numbers, put_u32, tangled, Random, Sound};
use icon_cache::{catalogue_of, check, lookup, raw, records, salvage, squeeze};
use std::collections::{BTreeMap, HashMap, HashSet};

const SEED: u64 = 20_260_112;

/// How often each number was answered.
type Counts = BTreeMap<u32, usize>;

/// A cache with few different names, paths and lists, shuffled and with gaps.
struct Crowded<'a> {
    random: &'a mut Random,
    bytes: Vec<u8>,
    places: HashMap<Vec<u8>, usize>,
}

impl Crowded<'_> {
    fn make(random: &mut Random) -> Vec<u8> {
        let mut cache = Crowded {
            random,
            bytes: vec![0; 12],
            places: HashMap::new(),
        };
        cache.fill();
        cache.bytes
    }

    /// Where the part is: anew, or where it is already.
    fn part(&mut self, part: Vec<u8>) -> u32 {
        if let Some(place) = self.places.get(&part) {
            if self.random.one_in(2) {
                return *place as u32;
            }
        }
        if self.random.one_in(3) {
            let gap = self.random.below(9);
            self.bytes.extend(self.random.text(gap));
        }
        let place = self.bytes.len();
        self.bytes.extend(&part);
        self.places.insert(part, place);
        place as u32
    }

    fn text(&mut self) -> Vec<u8> {
        let length = self.random.between(1, 3);
        (0..length).map(|_| b"ab"[self.random.below(2)]).collect()
    }

    fn list(&mut self, directories: usize, data: bool) -> Vec<u8> {
        let count = self.random.below(3);
        let mut list = numbers(&[count as u32]);
        for _ in 0..count {
            let directory = match directories {
                0 => 0xFFFF,
                n => self.random.below(n) as u32,
            };
            let offset = u32::from(data && self.random.one_in(20));
            list.extend(numbers(&[
                directory << 16 | self.random.below(2) as u32,
                offset,
            ]));
        }
        list
    }

    fn fill(&mut self) {
        let directories = self.random.below(5);
        let buckets = self.random.between(1, 4);
        let data = self.random.one_in(4);
        let mut fields = vec![directories as u32];
        for _ in 0..directories {
            let path = [self.text(), vec![0]].concat();
            fields.push(self.part(path));
        }
        let directory_list = self.part(numbers(&fields));
        let mut ends = vec![None; buckets];
        let hash = self.bytes.len();
        self.bytes.extend(numbers(&[buckets as u32]));
        self.bytes.extend(vec![0xFF; 4 * buckets]);
        for _ in 0..self.random.below(24) {
            let name = self.text();
            let bucket = reader::hash(&name) as usize % buckets;
            let name = self.part([name, vec![0]].concat());
            let list = self.list(directories, data);
            let list = self.part(list);
            let record = self.bytes.len();
            self.bytes.extend(numbers(&[u32::MAX, name, list]));
            let field = ends[bucket]
                .replace(record)
                .unwrap_or(hash + 4 + 4 * bucket);
            put_u32(&mut self.bytes, field, record as u32);
        }
        put_u32(&mut self.bytes, 0, 0x0001_0000);
        put_u32(&mut self.bytes, 4, hash as u32);
        put_u32(&mut self.bytes, 8, directory_list);
    }
}

fn compare(cache: &[u8], room: usize, counts: &mut Counts) {
    let mut lent = vec![0xAA; room];
    let answer = raw::squeeze(cache, &mut lent);
    *counts.entry(answer.number).or_default() += 1;
    let (expected, squeezed) = match reader::squeeze::squeeze(cache, room) {
        Ok(squeezed) => ((0, 0), squeezed),
        Err(refusal) => (refusal, Vec::new()),
    };
    assert_eq!((answer.number, answer.place), expected);
    assert_eq!(answer.length, squeezed.len());
    assert!(lent.starts_with(&squeezed));
    assert!(lent[squeezed.len()..].iter().all(|byte| *byte == 0xAA));
}

/// With much room, with none, with as much as it takes and with a byte less.
fn compare_rooms(cache: &[u8], counts: &mut Counts) {
    compare(cache, 20_000, counts);
    compare(cache, 0, counts);
    if let Ok(squeezed) = reader::squeeze::squeeze(cache, usize::MAX) {
        compare(cache, squeezed.len(), counts);
        compare(cache, squeezed.len() - 1, counts);
    }
}

/// Number and words of a lookup with so much room.
fn looked_up(cache: &[u8], name: &[u8], room: usize) -> (u32, Vec<u32>) {
    let mut words = vec![7; room];
    let number = raw::lookup(cache, name, &mut words).number;
    (number, words)
}

/// Each name is there once and is looked up as before, and squeezing again changes nothing.
/// A salvage of the old cache gives what the squeezed one is listed as.
fn use_it(cache: &[u8]) {
    let Ok(squeezed) = squeeze(cache) else {
        return;
    };
    let names = |cache| -> Vec<&[u8]> {
        let names = records(cache).map(|record| record.unwrap().name);
        names.collect()
    };
    let once: HashSet<&[u8]> = names(&squeezed).into_iter().collect();
    assert_eq!(once.len(), check(&squeezed).unwrap().icons);
    for name in names(cache) {
        let images = lookup(cache, name).unwrap().images.len();
        let longer = [name, b"~"].concat();
        for room in [
            0,
            (2 * images).saturating_sub(1),
            2 * images,
            2 * images + 1,
        ] {
            for name in [name, &longer] {
                let found = looked_up(cache, name, room);
                assert_eq!(looked_up(&squeezed, name, room), found);
            }
        }
    }
    assert_eq!(squeeze(&squeezed).unwrap(), squeezed);
    let listed = catalogue_of(&squeezed).unwrap();
    assert_eq!(salvage(cache).unwrap().catalogue, listed);
}

#[test]
fn crowded_caches() {
    let mut random = Random::new(SEED, 1);
    let mut counts = Counts::new();
    for _ in 0..4_000 {
        let cache = Crowded::make(&mut random);
        assert!(check(&cache).is_ok());
        compare_rooms(&cache, &mut counts);
        use_it(&cache);
    }
    for number in [0, 19, 25] {
        assert!(counts.contains_key(&number), "no answer {number}");
    }
}

#[test]
fn damaged_and_tangled_caches() {
    let mut random = Random::new(SEED, 2);
    let mut counts = Counts::new();
    for _ in 0..300 {
        let sound = Sound::make(&mut random);
        compare_rooms(&sound.bytes, &mut counts);
        use_it(&sound.bytes);
        compare_rooms(&tangled::make(&mut random), &mut counts);
        let mut crowded = Crowded::make(&mut random);
        let at = random.below(crowded.len());
        crowded[at] = random.below(256) as u8;
        compare_rooms(&crowded, &mut counts);
        let length = random.below(crowded.len());
        compare_rooms(&crowded[..length], &mut counts);
    }
    let farm = Sound::farm();
    damage::every_field(&farm, &damage::fields(&farm), |cache| {
        compare_rooms(cache, &mut counts)
    });
    for number in [0, 1, 3, 4, 5, 6, 7, 8, 9, 10, 11, 12, 17, 19, 25] {
        assert!(
            counts.contains_key(&number),
            "no answer {number}: {counts:?}"
        );
    }
}

/// As many buckets as are written, and one more.
#[test]
fn many_buckets() {
    for (buckets, number) in [(4_096, 0), (4_097, 25)] {
        let mut cache = numbers(&[0x0001_0000, 12, 16 + 4 * buckets, buckets]);
        cache.extend(vec![0xFF; 4 * buckets as usize]);
        cache.extend(numbers(&[0]));
        let mut counts = Counts::new();
        compare(&cache, cache.len(), &mut counts);
        assert_eq!(counts, Counts::from([(number, 1)]));
    }
}
