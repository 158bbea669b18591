//! Squeezes the farm cache, caches made by hand, and those of real icon themes, which GTK
//! and Qt would read as before.

#[allow(dead_code)]
mod generator;
mod peers;
#[allow(dead_code)]
mod reader;

use generator::{numbers, put, put_u32, u32_at, END, VERSION};
use icon_cache::{check, raw, squeeze, Refusal, FARM_CACHE, LARGEST};
use peers::{gtk, qt};

/// The farm cache with another number of four bytes at an offset.
fn farm_with(offset: usize, value: u32) -> Vec<u8> {
    let mut cache = FARM_CACHE.to_vec();
    put_u32(&mut cache, offset, value);
    cache
}

/// Number and place with so many bytes lent, which a refusal leaves as they were.
fn refused(cache: &[u8], room: usize) -> (u32, usize) {
    let mut lent = vec![0xAA; room];
    let answer = raw::squeeze(cache, &mut lent);
    assert_eq!(answer.length, 0);
    assert!(lent.iter().all(|byte| *byte == 0xAA));
    (answer.number, answer.place)
}

#[test]
fn the_farm_cache_is_itself() {
    assert_eq!(squeeze(FARM_CACHE).unwrap(), FARM_CACHE);
    let mut lent = [0xAA; 130];
    let answer = raw::squeeze(FARM_CACHE, &mut lent);
    assert_eq!((answer.number, answer.place, answer.length), (0, 0, 126));
    assert_eq!(lent[..126], FARM_CACHE[..]);
    assert_eq!(lent[126..], [0xAA; 4]);
    for room in 0..126 {
        assert_eq!(refused(FARM_CACHE, room), (19, 0));
    }
}

/// The check's refusals come first, whatever room there is.
#[test]
fn refusals_of_the_check_come_first() {
    for (cache, answer) in [
        (vec![], (1, 0)),
        (vec![0; LARGEST + 1], (2, 0)),
        (farm_with(0, 0x0001_0001), (3, 0)),
        (farm_with(8, 126), (4, 8)),
        (farm_with(12, 0), (5, 4)),
        (farm_with(104, 0x71), (6, 104)),
        (farm_with(24, 126), (7, 24)),
        (farm_with(56, 125), (8, 56)),
        (farm_with(20, 28), (9, 32)),
        (farm_with(60, 126), (10, 60)),
        (farm_with(88, 0x0002_0004), (11, 88)),
        (farm_with(40, 28), (12, 16)),
        (FARM_CACHE[..125].to_vec(), (17, 56)),
    ] {
        assert_eq!(refused(&cache, 0), answer);
        assert_eq!(refused(&cache, 200), answer);
        let refusal = squeeze(&cache).unwrap_err();
        assert_eq!((refusal.number, refusal.place), answer);
    }
    let mut climbing = FARM_CACHE.to_vec();
    put(&mut climbing, 108, b"..");
    put_u32(&mut climbing, 72, 1);
    assert_eq!(refused(&climbing, 0), (16, 100));
}

/// The count of buckets is judged before the images, and these before the room.
#[test]
fn buckets_before_data_before_room() {
    for (buckets, answer) in [(4_097, (25, 4)), (4_096, (25, 36 + 4 * 4_096))] {
        // One icon, in its bucket, with an image that has data.
        let record = 16 + 4 * buckets;
        let mut cache = numbers(&[VERSION, 12, record + 12, buckets]);
        cache.extend(numbers(&vec![END; buckets as usize]));
        cache.extend(numbers(&[END, record + 28, record + 16]));
        cache.extend(numbers(&[0, 1, 0xFFFF_0001, 1]));
        cache.extend(b"a\0");
        put_u32(&mut cache, 16 + 4 * usize::from(b'a'), record);
        assert!(check(&cache).is_ok());
        assert_eq!(refused(&cache, 0), answer);
        assert_eq!(refused(&cache, 40_000), answer);
    }
}

/// oat is named hen, and is dropped. Its image is judged all the same, before that of cow.
#[test]
fn data_of_a_dropped_icon() {
    let mut cache = farm_with(44, 0x72);
    put_u32(&mut cache, 48, 126);
    put_u32(&mut cache, 92, 1);
    cache.extend(numbers(&[1, 1, 1]));
    assert_eq!(refused(&cache, 0), (25, 130));
    let refusal = squeeze(&cache).unwrap_err();
    assert_eq!((refusal.number, refusal.place), (Refusal::NOT_WRITTEN, 130));
    put_u32(&mut cache, 134, 0);
    assert_eq!(refused(&cache, 0), (25, 88));
}

/// Strings that are ends of others are written out.
#[test]
fn longer_than_before() {
    let mut cache = FARM_CACHE[..108].to_vec();
    cache.extend(b"hen\0oat\0cow\0");
    for (field, place) in [(100, 109), (104, 113), (32, 108), (44, 112), (56, 116)] {
        put_u32(&mut cache, field, place);
    }
    assert_eq!(refused(&cache, cache.len()), (19, 0));
    let squeezed = squeeze(&cache).unwrap();
    assert_eq!(squeezed.len(), cache.len() + 6);
    assert_eq!(&squeezed[108..], b"en\0at\0hen\0oat\0cow\0");
}

/// A cache without icons whose squeezed one has so many bytes: its paths are the ends of
/// 32 texts.
fn of_size(size: usize) -> Vec<u8> {
    let mut left = size - 24;
    let mut lengths = vec![];
    for text in 0..32 {
        for length in (1..1_024).rev() {
            if left >= length + 5 {
                left -= length + 5;
                lengths.push((text, length));
            }
        }
    }
    assert_eq!(left, 0);
    let texts = 24 + 4 * lengths.len();
    let mut fields = vec![VERSION, 12, 20, 1, END, lengths.len() as u32];
    fields.extend(lengths.iter().map(|(text, length)| {
        let end = texts + 1_024 * (text + 1) - 1;
        (end - length) as u32
    }));
    let mut cache = numbers(&fields);
    for text in 0..32 {
        cache.extend([b'A' + text; 1_023]);
        cache.push(0);
    }
    cache
}

#[test]
fn at_the_limit_and_above() {
    let cache = of_size(LARGEST);
    assert!(cache.len() < 200_000);
    let squeezed = squeeze(&cache).unwrap();
    assert_eq!(squeezed.len(), LARGEST);
    assert_eq!(check(&squeezed).unwrap(), check(&cache).unwrap());
    assert_eq!(refused(&of_size(LARGEST + 1), LARGEST + 100), (19, 0));
}

/// The images in the check's order.
fn images(cache: &[u8]) -> Vec<usize> {
    let records = icon_cache::records(cache).map(|record| record.unwrap().offset);
    let lists = records.map(|record| u32_at(cache, record + 8) as usize);
    let images = lists.flat_map(|list| {
        let count = u32_at(cache, list) as usize;
        (list + 4..).step_by(8).take(count)
    });
    images.collect()
}

/// Squeezes a real cache of so many icons to so many bytes. If its first image with data
/// stands at `data`, it is refused, and squeezed once no image has data.
fn real(cache: &[u8], icons: usize, data: Option<usize>, length: usize) {
    let mut plain = cache.to_vec();
    for image in images(cache) {
        put_u32(&mut plain, image + 4, 0);
    }
    match data {
        Some(image) => assert_eq!(refused(cache, cache.len()), (25, image)),
        None => assert_eq!(plain, cache),
    }
    let squeezed = squeeze(&plain).unwrap();
    assert_eq!(
        reader::squeeze::squeeze(&plain, LARGEST),
        Ok(squeezed.clone())
    );
    assert_eq!(squeezed.len(), length);
    assert_eq!(squeeze(&squeezed).unwrap(), squeezed);
    let names = reader::names(&plain);
    assert_eq!(names.len(), icons);
    read_by_peers(&plain, &squeezed, &names);
}

/// GTK and Qt find the same in both caches.
fn read_by_peers(cache: &[u8], squeezed: &[u8], names: &[&[u8]]) {
    assert!(gtk::is_valid(cache) && gtk::is_valid(squeezed));
    let directories = check(cache).unwrap().directories;
    let paths = (0..directories).map(|index| icon_cache::directory(cache, index).unwrap());
    let indexes: Vec<Option<usize>> = paths
        .map(|path| {
            let index = gtk::directory_index(cache, path);
            assert_eq!(gtk::directory_index(squeezed, path), index);
            index
        })
        .collect();
    assert!(indexes.into_iter().eq((0..directories).map(Some)));
    for name in names {
        let flags = |cache| -> Vec<_> {
            let flags = (0..directories).map(|index| gtk::flags(cache, name, index));
            flags.collect()
        };
        assert!(flags(cache).iter().any(Option::is_some));
        assert_eq!(flags(squeezed), flags(cache));
        let paths = qt::lookup(cache, name).expect("Qt reads it");
        assert!(!paths.is_empty());
        assert_eq!(qt::lookup(squeezed, name), Some(paths));
        let absent = [name, b"~".as_slice()].concat();
        assert_eq!(gtk::flags(squeezed, &absent, 0), None);
        assert_eq!(qt::lookup(squeezed, &absent), Some(vec![]));
    }
}

#[test]
fn hicolor() {
    real(include_bytes!("data/hicolor.cache"), 2, None, 238);
}

#[test]
fn tango() {
    real(include_bytes!("data/Tango.cache"), 849, Some(8_240), 28_573);
}

#[test]
fn suffixes_notes_and_pixels() {
    real(include_bytes!("data/suffixes.cache"), 5, Some(216), 253);
    real(include_bytes!("data/notes.cache"), 3, Some(108), 190);
    real(include_bytes!("data/pixels.cache"), 3, Some(80), 190);
}

/// What the check takes and a peer doesn't: a list at an odd offset, a space in a path.
#[test]
fn the_peers_are_stricter() {
    let mut odd = farm_with(36, 127);
    odd.push(0);
    odd.extend_from_within(64..76);
    assert!(check(&odd).is_ok());
    assert_eq!(qt::lookup(&odd, b"hen"), None);
    assert_eq!(squeeze(&odd).unwrap(), FARM_CACHE);
    assert_eq!(qt::lookup(FARM_CACHE, b"hen"), Some(vec![b"16".as_slice()]));

    let mut spaced = FARM_CACHE.to_vec();
    spaced[109] = b' ';
    assert!(check(&spaced).is_ok());
    assert!(gtk::is_valid(FARM_CACHE) && !gtk::is_valid(&spaced));
}
