//! Lists caches as catalogues, by the library and by a second reader, and compares
//! number, place, length and every lent byte.

#[allow(dead_code)]
mod catalogues;
// It is written for another test, which uses more of it.
#[allow(dead_code)]
mod generator;
#[allow(dead_code)]
mod reader;

use catalogues::{Answer, Catalogue, Icon};
use generator::{damage, Random, Sound};
use icon_cache::{raw, Refusal, FARM_CACHE};
use std::collections::BTreeMap;

/// Bytes beyond the room on either side, which no call may touch.
const GUARD: usize = 16;

/// The farm's catalogue: its directories "16" and "64", its icons with their images.
const FARM: &[u8; 62] = b"\
    \0\x02\0\x0216\0\x0264\0\x03\
    \x03hen\0\x01\0\0\0\x01\0\0\0\0\
    \x03oat\0\x01\0\0\0\x01\0\0\0\0\
    \x03cow\0\x02\0\0\0\x01\0\0\0\0\0\x01\0\x04\0\0\0\0";

/// Bytes that differ from their neighbours and from zero.
fn marked(count: usize) -> Vec<u8> {
    (0..count).map(|i| 0xA0 + (i % 61) as u8).collect()
}

/// Asks both readers, with `room` bytes lent, and gives the bytes written.
fn list(cache: &[u8], room: usize) -> (Answer, Vec<u8>) {
    let read = cache.to_vec();
    let mut lent = marked(room + 2 * GUARD);
    let answer = raw::catalogue_of(&read, &mut lent[GUARD..][..room]);
    assert!(read == cache, "the cache was changed");
    let mut expected = marked(room + 2 * GUARD);
    let wanted = catalogues::list(cache, &mut expected[GUARD..][..room]);
    let answer = Answer {
        number: answer.number,
        place: answer.place,
        length: answer.length,
    };
    assert_eq!(answer, wanted, "{room} bytes of room");
    assert!(lent == expected, "other bytes with {room} bytes of room");
    lent.truncate(GUARD + answer.length);
    (answer, lent.split_off(GUARD))
}

/// The farm cache with another number of four bytes at an offset.
fn farm_with(offset: usize, value: u32) -> Vec<u8> {
    let mut cache = FARM_CACHE.to_vec();
    cache[offset..][..4].copy_from_slice(&value.to_be_bytes());
    cache
}

#[test]
fn the_farm_cache() {
    let (answer, catalogue) = list(FARM_CACHE, 100);
    assert_eq!((answer.number, answer.place, answer.length), (0, 0, 62));
    assert_eq!(catalogue, FARM);
    assert_eq!(icon_cache::catalogue_of(FARM_CACHE).unwrap(), FARM);
}

#[test]
fn exact_room_and_one_less() {
    for room in 0..62 {
        let (answer, _) = list(FARM_CACHE, room);
        assert_eq!((answer.number, answer.place, answer.length), (19, 0, 0));
    }
    assert_eq!(list(FARM_CACHE, 62).1, FARM);
}

/// The check's refusals come first, whatever room there is.
#[test]
fn refusals_of_the_check_come_first() {
    for (cache, answer) in [
        (vec![], (1, 0)),
        (FARM_CACHE[..11].to_vec(), (1, 0)),
        (farm_with(0, 0x0001_0001), (3, 0)),
        (farm_with(8, 126), (4, 8)),
        (farm_with(12, 0), (5, 4)),
        (farm_with(104, 0x71), (6, 104)),
        (farm_with(24, 126), (7, 24)),
        (farm_with(56, 125), (8, 56)),
        (farm_with(60, 126), (10, 60)),
        (farm_with(88, 0x0002_0004), (11, 88)),
        (farm_with(40, 28), (12, 16)),
        (FARM_CACHE[..125].to_vec(), (17, 56)),
    ] {
        for room in [0, 62, 200] {
            let (refused, _) = list(&cache, room);
            assert_eq!((refused.number, refused.place), answer);
        }
        let refusal = icon_cache::catalogue_of(&cache).unwrap_err();
        assert_eq!((refusal.number, refusal.place), answer);
    }
}

/// hen and oat stand in one bucket. The later one is named, and the room comes after.
#[test]
fn a_name_used_before() {
    let cache = farm_with(44, 0x72);
    for room in [0, 62, 200] {
        let (answer, _) = list(&cache, room);
        assert_eq!((answer.number, answer.place), (20, 44));
    }
    let refusal = icon_cache::catalogue_of(&cache).unwrap_err();
    assert_eq!(refusal.number, Refusal::REPEATED_NAME);
}

/// The chain goes from the higher record to the lower: listed is the lower one first,
/// and the later of two equal names is that on the chain.
#[test]
fn the_order_of_records_and_of_the_check() {
    let mut cache = farm_with(16, 40);
    cache[40..44].copy_from_slice(&28u32.to_be_bytes());
    cache[28..32].fill(0xFF);
    assert_eq!(list(&cache, 62).1, FARM);
    cache[32..36].copy_from_slice(&0x76u32.to_be_bytes());
    let (answer, _) = list(&cache, 62);
    assert_eq!((answer.number, answer.place), (20, 32));
}

/// Records share one list of 1,024 images, and their names are one another's ends.
#[test]
fn a_catalogue_longer_than_its_cache() {
    let images = vec![vec![0xFF, 0xFF, 0, 1, 0, 0, 0, 0]; 1_024];
    let name = |i: usize| vec![b'a'; 1 + i];
    let icons: Vec<Icon> = (0..255).map(|i| Icon::new(name(i), Vec::new())).collect();
    let paths = Vec::new();
    let mut cache = catalogues::lay_out(&Catalogue { paths, icons }, 31);
    let list_place = cache.len() as u32;
    cache.extend(1_024u32.to_be_bytes());
    cache.extend(images.iter().flatten());
    for record in (16 + 4 * 31..).step_by(12).take(255) {
        cache[record + 8..][..4].copy_from_slice(&list_place.to_be_bytes());
    }
    let length = 4 + 255 * (3 + 8 * 1_024) + 255 * 256 / 2;
    let (answer, catalogue) = list(&cache, length);
    assert_eq!((answer.number, answer.length), (0, length));
    assert!(length > 20 * cache.len());
    assert_eq!(list(&cache, length - 1).0.number, 19);
    assert!(icon_cache::catalogue_of(&cache).unwrap() == catalogue);
    // It is written to a cache again, which shares nothing.
    let written = icon_cache::write(&catalogue, 31).unwrap();
    assert!(icon_cache::catalogue_of(&written).unwrap() == catalogue);
}

/// A cache of so many icons of different names.
fn many(count: usize) -> Vec<u8> {
    let icon = |i| Icon::new(format!("n{i:07}").into_bytes(), Vec::new());
    let icons = (0..count).map(icon).collect();
    let paths = Vec::new();
    catalogues::lay_out(&Catalogue { paths, icons }, 4_093)
}

#[test]
fn too_many_icons() {
    let (answer, catalogue) = list(&many(65_535), 1 << 20);
    assert_eq!((answer.number, answer.length), (0, 4 + 11 * 65_535));
    assert!(catalogue.ends_with(b"n0065534\0\0"));
    let mut cache = many(65_536);
    for room in [0, 1 << 20] {
        let (answer, _) = list(&cache, room);
        assert_eq!((answer.number, answer.place), (21, 0));
    }
    let refusal = icon_cache::catalogue_of(&cache).unwrap_err();
    assert_eq!(refusal.number, Refusal::TOO_MANY_ICONS);
    // A name used before comes first: a record bears that of the one before it on its
    // chain.
    let first = 16 + 4 * 4_093;
    let next = generator::u32_at(&cache, first) as usize;
    cache.copy_within(first + 4..first + 8, next + 4);
    let (answer, _) = list(&cache, 1 << 20);
    assert_eq!((answer.number, answer.place), (20, next + 4));
}

#[test]
fn the_library_agrees_with_the_second_reader() {
    let mut random = Random::new(20_260_101, 11);
    let mut met: BTreeMap<u32, usize> = BTreeMap::new();
    for _ in 0..10_000 {
        let sound = Sound::make(&mut random);
        let mut ask = |random: &mut Random, cache: &[u8]| {
            let number = compare(random, cache);
            *met.entry(number).or_default() += 1;
        };
        ask(&mut random, &sound.bytes);
        for _ in 0..6 {
            let kind = random.below(damage::AT_RANDOM.len());
            if let Some(bytes) = damage::AT_RANDOM[kind].1(&mut random, &sound) {
                ask(&mut random, &bytes);
            }
        }
        let length = random.below(sound.bytes.len());
        ask(&mut random, &sound.bytes[..length]);
    }
    println!("{met:?}");
    for number in (0..=17)
        .filter(|n| ![2, 13, 14, 15].contains(n))
        .chain([20])
    {
        assert!(met.contains_key(&number), "no answer {number}");
    }
}

/// With room enough, with exact room and with less; and what is listed is written again.
/// Gives the number with room enough.
fn compare(random: &mut Random, cache: &[u8]) -> u32 {
    let refusal = match catalogues::listed(cache) {
        Ok(catalogue) => {
            let length = catalogue.len();
            for room in [length, length + random.below(30)] {
                assert!(list(cache, room).1 == catalogue);
            }
            for room in [length - 1, random.below(length)] {
                assert_eq!(list(cache, room).0.number, 19);
            }
            assert!(icon_cache::catalogue_of(cache).unwrap() == catalogue);
            let written = icon_cache::write(&catalogue, random.between(1, 9)).unwrap();
            assert!(icon_cache::catalogue_of(&written).unwrap() == catalogue);
            return 0;
        }
        Err(refusal) => refusal,
    };
    let (answer, _) = list(cache, [0, 10, 1_000][random.below(3)]);
    assert_eq!((answer.number, answer.place), refusal);
    answer.number
}

/// Listed, written with other bucket counts, checked, and each name looked up.
fn write_again(cache: &[u8], icons: usize) {
    let room = 2 * cache.len();
    let (answer, catalogue) = list(cache, room);
    assert_eq!(answer.number, 0);
    let names = reader::names(cache);
    assert_eq!(names.len(), icons);
    for buckets in [1, 7, 1_021, 4_096] {
        let written = icon_cache::write(&catalogue, buckets).unwrap();
        assert_eq!(reader::sizes(&written).unwrap().1, buckets);
        let checked = icon_cache::check(&written).unwrap();
        assert_eq!(checked.icons, icons);
        assert_eq!(
            checked.directories,
            icon_cache::check(cache).unwrap().directories
        );
        for index in 0..checked.directories {
            let path = icon_cache::directory(&written, index);
            assert_eq!(path, icon_cache::directory(cache, index));
        }
        for name in &names {
            let images = icon_cache::lookup(&written, name).unwrap().images;
            assert_eq!(images, icon_cache::lookup(cache, name).unwrap().images);
        }
        assert!(icon_cache::catalogue_of(&written).unwrap() == catalogue);
    }
}

#[test]
fn hicolor() {
    write_again(include_bytes!("data/hicolor.cache"), 2);
}

#[test]
fn tango() {
    write_again(include_bytes!("data/Tango.cache"), 849);
}

#[test]
fn suffixes() {
    write_again(include_bytes!("data/suffixes.cache"), 5);
}
