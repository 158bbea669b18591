//! Writes caches from catalogues, by the library and by a second writer, and compares
//! number, place, length and every lent byte.

mod catalogues;
// It is written for another test, which uses more of it.
#[allow(dead_code)]
mod generator;
#[allow(dead_code)]
mod reader;

use catalogues::made::{Kind, Made, KINDS};
use catalogues::Answer;
use generator::Random;
use icon_cache::{raw, Catalogue, Field, Icon, Image, Refusal, LARGEST};
use std::collections::HashMap;

/// Bytes beyond the room on either side, which no call may touch.
const GUARD: usize = 16;

/// The farm's catalogue: its directories "16" and "64", its icons with their images.
const FARM: &[u8; 62] = b"\
    \0\x02\0\x0216\0\x0264\0\x03\
    \x03hen\0\x01\0\0\0\x01\0\0\0\0\
    \x03oat\0\x01\0\0\0\x01\0\0\0\0\
    \x03cow\0\x02\0\0\0\x01\0\0\0\0\0\x01\0\x04\0\0\0\0";

/// What is written of it with three buckets, reckoned by hand. Unlike in the farm
/// cache, hen and oat have an image list each.
#[rustfmt::skip]
const FARM_WRITTEN: &[u8; 138] = b"\
    \x00\x01\x00\x00\x00\x00\x00\x0C\x00\x00\x00\x6C\
    \x00\x00\x00\x03\x00\x00\x00\x1C\xFF\xFF\xFF\xFF\x00\x00\x00\x34\
    \x00\x00\x00\x28\x00\x00\x00\x7E\x00\x00\x00\x40\
    \xFF\xFF\xFF\xFF\x00\x00\x00\x82\x00\x00\x00\x4C\
    \xFF\xFF\xFF\xFF\x00\x00\x00\x86\x00\x00\x00\x58\
    \x00\x00\x00\x01\x00\x00\x00\x01\x00\x00\x00\x00\
    \x00\x00\x00\x01\x00\x00\x00\x01\x00\x00\x00\x00\
    \x00\x00\x00\x02\x00\x00\x00\x01\x00\x00\x00\x00\x00\x01\x00\x04\x00\x00\x00\x00\
    \x00\x00\x00\x02\x00\x00\x00\x78\x00\x00\x00\x7B\
    16\x0064\x00hen\x00oat\x00cow\x00";

/// Bytes that differ from their neighbours and from zero.
fn marked(count: usize) -> Vec<u8> {
    (0..count).map(|i| 0xA0 + (i % 61) as u8).collect()
}

/// Asks both writers, with `room` bytes lent, and gives the bytes written.
fn write(catalogue: &[u8], buckets: usize, room: usize) -> (Answer, Vec<u8>) {
    let read = catalogue.to_vec();
    let mut lent = marked(room + 2 * GUARD);
    let answer = raw::write(&read, buckets, &mut lent[GUARD..][..room]);
    assert!(read == catalogue, "the catalogue was changed");
    let mut expected = marked(room + 2 * GUARD);
    let wanted = catalogues::write(catalogue, buckets, &mut expected[GUARD..][..room]);
    let answer = Answer {
        number: answer.number,
        place: answer.place,
        length: answer.length,
    };
    let call = || format!("{buckets} buckets, {room} bytes of room: {catalogue:02x?}");
    assert_eq!(answer, wanted, "{}", call());
    assert!(lent == expected, "other bytes with {}", call());
    lent.truncate(GUARD + answer.length);
    (answer, lent.split_off(GUARD))
}

/// Number and place, with more room than any of these catalogues needs.
fn judged(catalogue: &[u8], buckets: usize) -> (u32, usize) {
    let (answer, _) = write(catalogue, buckets, 40_000);
    (answer.number, answer.place)
}

#[test]
fn the_farms_catalogue() {
    let (answer, cache) = write(FARM, 3, 200);
    assert_eq!((answer.number, answer.place, answer.length), (0, 0, 138));
    assert_eq!(cache, FARM_WRITTEN);
    assert_eq!(icon_cache::write(FARM, 3).unwrap(), FARM_WRITTEN);
}

#[test]
fn exact_room_and_one_less() {
    for room in 0..138 {
        let (answer, _) = write(FARM, 3, room);
        assert_eq!((answer.number, answer.place, answer.length), (19, 0, 0));
    }
    assert_eq!(write(FARM, 3, 138).1, FARM_WRITTEN);
}

#[test]
fn bucket_counts() {
    for buckets in [0, 4_097, 65_537, 1 << 32, usize::MAX - 1, usize::MAX] {
        assert_eq!(judged(FARM, buckets), (18, 0));
        let refusal = icon_cache::write(FARM, buckets).unwrap_err();
        assert_eq!(refusal.number, Refusal::BAD_FIELD);
    }
    for buckets in [1, 2, 5, 4_095, 4_096] {
        let (answer, cache) = write(FARM, buckets, 40_000);
        assert_eq!(answer.length, 126 + 4 * buckets);
        serves(&cache, FARM);
        assert_eq!(write(FARM, buckets, answer.length - 1).0.number, 19);
        assert_eq!(write(FARM, buckets, answer.length).1, cache);
    }
}

/// The cache is sound, each name has its images, and it is listed as its catalogue.
fn serves(cache: &[u8], catalogue: &[u8]) {
    let good = catalogues::read(catalogue).unwrap();
    let checked = icon_cache::check(cache).unwrap();
    assert_eq!(checked.icons, good.icons.len());
    assert_eq!(checked.directories, good.paths.len());
    assert_eq!(reader::check(cache).number, 0);
    for (index, path) in good.paths.iter().enumerate() {
        assert_eq!(icon_cache::directory(cache, index).unwrap(), path);
    }
    for icon in &good.icons {
        let found = icon_cache::lookup(cache, &icon.name).unwrap();
        let images = found.images.iter().map(|image| {
            let words = [image.directory.to_be_bytes(), image.flags.to_be_bytes()];
            [words.concat(), image.data_offset.to_be_bytes().to_vec()].concat()
        });
        assert!(images.eq(icon.images.iter().cloned()));
    }
    assert!(catalogues::listed(cache).unwrap() == catalogue);
    assert!(icon_cache::catalogue_of(cache).unwrap() == catalogue);
}

#[test]
fn nothing_at_all() {
    assert_eq!(judged(b"", 1), (18, 0));
    assert_eq!(judged(b"\0", 1), (18, 0));
    assert_eq!(judged(b"\0\0", 1), (18, 2));
    assert_eq!(judged(b"\0\0\0", 1), (18, 2));
    assert_eq!(judged(b"\0\0\0\0\0", 1), (18, 4));
    for buckets in [1, 4_096] {
        let (answer, cache) = write(b"\0\0\0\0", buckets, 20_000);
        assert_eq!(answer.length, 20 + 4 * buckets);
        serves(&cache, b"\0\0\0\0");
    }
}

/// Each prefix is cut off in the field where it ends.
#[test]
fn the_farms_catalogue_cut_off() {
    let fields = [
        0, 2, 4, 6, 8, 10, 12, 13, 16, 18, 26, 27, 30, 32, 40, 41, 44, 46, 54,
    ];
    for length in 0..FARM.len() {
        let place = fields.iter().rfind(|place| **place <= length).unwrap();
        assert_eq!(judged(&FARM[..length], 3), (18, *place), "{length} bytes");
    }
    assert_eq!(judged(&[FARM, b"x".as_slice()].concat(), 3), (18, 62));
}

/// The farm's catalogue with other bytes at a place.
fn farm_with(place: usize, bytes: &[u8]) -> Vec<u8> {
    let mut catalogue = FARM.to_vec();
    catalogue[place..][..bytes.len()].copy_from_slice(bytes);
    catalogue
}

#[test]
fn fields_that_break_a_rule() {
    for (place, bytes, at) in [
        (2, b"\0\0".as_slice(), 2), // a path's length of 0, 1,024 and 1,023
        (2, b"\x04\0", 2),
        (2, b"\x03\xFF", 4),
        (4, b"..", 4), // paths
        (4, b"/6", 4),
        (8, b"6/", 8),
        (8, b"6\0", 8),
        (12, b"\0", 12), // a name's length, and 255
        (12, b"\xFF", 13),
        (13, b"\0", 13), // names
        (15, b"\0", 13),
        (16, b"\x04\x01", 16), // an image count of 1,025, and of 1,024
        (16, b"\x04\0", 26),
        (18, b"\0\x02", 18), // an index, and flags
        (18, b"\xFF\xFF", 18),
        (54, b"\0\x01\0\x10", 54),
        (0, b"\0\x01", 9),  // one path: "6" is then the length of a name
        (0, b"\0\x03", 18), // three: the third is "\x03he", and 0 the first name
        (10, b"\0\x02", 40),
        (10, b"\0\x04", 62),
    ] {
        assert_eq!(
            judged(&farm_with(place, bytes), 3),
            (18, at),
            "{bytes:?} at {place}"
        );
    }
}

/// The later of the two is named, by the first byte of its text; fields come first, and
/// the bucket count comes after.
#[test]
fn names_used_before() {
    assert_eq!(judged(&farm_with(41, b"hen"), 3), (20, 41));
    assert_eq!(judged(&farm_with(27, b"hen"), 3), (20, 27));
    let mut all = farm_with(27, b"cow");
    assert_eq!(judged(&all, 3), (20, 41));
    all[13..16].copy_from_slice(b"cow");
    assert_eq!(judged(&all, 3), (20, 27));
    assert_eq!(judged(&all, 0), (20, 27));
    assert_eq!(write(&all, 3, 0).0.number, 20);
    all[57] = 16;
    assert_eq!(judged(&all, 3), (18, 54));
    all[57] = 15;
    all.push(0);
    assert_eq!(judged(&all, 3), (18, 62));
}

/// The bucket count is judged before the room.
#[test]
fn the_bucket_count_comes_before_the_room() {
    assert_eq!(write(FARM, 4_097, 0).0.number, 18);
    assert_eq!(write(FARM, 0, 0).0.number, 18);
    assert_eq!(write(FARM, 1, 0).0.number, 19);
}

/// With one bucket 2,041 icons take 24 + 2,041 * (17 + 8 + 8 * 1,024) bytes, and the last
/// one the rest.
#[test]
fn a_cache_at_the_limit_and_above() {
    let image = [0xFF, 0xFF, 0, 1, 0, 0, 0, 0];
    let catalogue = |last: &[u8]| {
        let mut made = Made::new();
        made.paths(&[]);
        made.icon_count(2_042);
        for i in 0..2_041 {
            made.icon(format!("{i:08}").as_bytes(), &[image; 1_024]);
        }
        made.icon(last, &[image; 784]);
        made.bytes
    };
    let largest = catalogue(b"abcdef");
    let (answer, cache) = write(&largest, 1, LARGEST + 100);
    assert_eq!((answer.number, answer.length), (0, LARGEST));
    assert!(icon_cache::check(&cache).is_ok());
    assert!(icon_cache::write(&largest, 1).unwrap() == cache);

    let larger = catalogue(b"abcdefg");
    assert_eq!(write(&larger, 1, LARGEST + 100).0.number, 19);
    let refusal = icon_cache::write(&larger, 1).unwrap_err();
    assert_eq!((refusal.number, refusal.place), (Refusal::DOES_NOT_FIT, 0));
}

/// As many directories as there may be, the image in the last.
#[test]
fn many_directories() {
    let mut made = Made::new();
    made.paths(&vec![b"d".to_vec(); 65_535]);
    made.icon_count(1);
    made.icon(b"n", &[[0xFF, 0xFE, 0, 15, 1, 2, 3, 4]]);
    let (_, cache) = write(&made.bytes, 7, 1 << 20);
    serves(&cache, &made.bytes);
    assert_eq!(icon_cache::write(&made.bytes, 7).unwrap(), cache);
    let image = made.fields.last().unwrap().place;
    made.bytes[image + 1] = 0xFF;
    let (answer, _) = write(&made.bytes, 7, 1 << 20);
    assert_eq!((answer.number, answer.place), (18, image));
}

/// Each kind of field, cut off and broken.
const CATALOGUES: usize = 20_000;

#[test]
fn the_library_agrees_with_the_second_writer() {
    let mut random = Random::new(20_260_101, 8);
    let mut met: HashMap<(Kind, bool), usize> = HashMap::new();
    let mut repeated = 0;
    for _ in 0..CATALOGUES {
        let made = Made::at_random(&mut random);
        demand_good(&mut random, &made);
        for kind in KINDS {
            let cut = made.cut(&mut random, kind).map(|bad| (bad, true));
            let broken = made.broken(&mut random, kind).map(|bad| (bad, false));
            for ((bytes, place), is_cut) in cut.into_iter().chain(broken) {
                demand_refused(&mut random, &bytes, 18, place);
                *met.entry((kind, is_cut)).or_default() += 1;
            }
        }
        if let Some((bytes, place)) = made.repeated(&mut random) {
            demand_refused(&mut random, &bytes, 20, place);
            repeated += 1;
        }
        noise(&mut random, &made.bytes);
    }
    for kind in KINDS {
        let counts = [true, false].map(|is_cut| met.get(&(kind, is_cut)).copied());
        println!("{kind:?}: cut off and broken {counts:?}");
        assert!(counts[0] > Some(CATALOGUES / 4));
        let breaks = !matches!(kind, Kind::DirectoryCount | Kind::IconCount);
        assert_eq!(counts[1] > Some(CATALOGUES / 4), breaks);
    }
    println!("{repeated} names used before");
    assert!(repeated > CATALOGUES / 50);
}

/// Written with exact room, and refused with one byte less.
fn demand_good(random: &mut Random, made: &Made) {
    let buckets = random.between(1, 9);
    let cache = icon_cache::write(&made.bytes, buckets).unwrap();
    let (answer, exact) = write(&made.bytes, buckets, cache.len());
    assert_eq!((answer.number, answer.place), (0, 0));
    assert_eq!(exact, cache);
    let room = cache.len() + random.below(20);
    assert_eq!(write(&made.bytes, buckets, room).1, cache);
    assert_eq!(write(&made.bytes, buckets, cache.len() - 1).0.number, 19);
    assert_eq!(judged_with(&made.bytes, 0, 0), (18, 0));
    assert_eq!(judged_with(&made.bytes, 4_097, 0), (18, 0));
    serves(&cache, &made.bytes);
    let read = Catalogue::from_bytes(&made.bytes).unwrap();
    assert!(read.icons.iter().map(|icon| &icon.name).eq(&made.names));
    assert_eq!(read.to_bytes().unwrap(), made.bytes);
}

fn judged_with(catalogue: &[u8], buckets: usize, room: usize) -> (u32, usize) {
    let (answer, _) = write(catalogue, buckets, room);
    (answer.number, answer.place)
}

/// Refused so, whatever the bucket count and the room, and the place is that of a field.
fn demand_refused(random: &mut Random, catalogue: &[u8], number: u32, place: usize) {
    let buckets = [0, 1, 3, 4_096, 4_097][random.below(5)];
    let room = [0, 20, 2_000][random.below(3)];
    let answer = judged_with(catalogue, buckets, room);
    assert_eq!(answer, (number, place), "{catalogue:02x?}");
    let refusal = Catalogue::from_bytes(catalogue).unwrap_err();
    assert_eq!((refusal.number, refusal.place), (number, place));
    assert!(Field::at(catalogue, place).is_some());
}

/// Bytes changed at random: both writers say the same, whatever that is.
fn noise(random: &mut Random, good: &[u8]) {
    let mut bytes = good.to_vec();
    for _ in 0..random.between(1, 3) {
        let place = random.below(bytes.len());
        bytes[place] = match random.below(3) {
            0 => 0,
            1 => bytes[place].wrapping_add(1),
            _ => random.next() as u8,
        };
    }
    if random.one_in(4) {
        bytes.extend([0, 1, 2]);
    }
    let (answer, _) = write(&bytes, random.between(1, 5), 20_000);
    if answer.number == 0 {
        serves(&icon_cache::write(&bytes, 3).unwrap(), &bytes);
    }
}

#[test]
fn fields_have_places_and_names() {
    let mut random = Random::new(20_260_101, 9);
    for _ in 0..200 {
        let made = Made::at_random(&mut random);
        let mut fields = made.fields.iter().peekable();
        for place in 0..=made.bytes.len() + 3 {
            let wanted = fields.next_if(|field| field.place == place);
            let found = Field::at(&made.bytes, place);
            assert_eq!(found.is_some(), wanted.is_some());
            if let (Some((field, width)), Some(wanted)) = (found, wanted) {
                assert_eq!(width, wanted.width);
                assert_eq!(kind(field), wanted.kind);
            }
        }
        assert!(fields.next().is_none());
    }
    let names = [0, 2, 4, 10, 12, 13, 16, 54, 62].map(|place| {
        let longer = [FARM, b"x".as_slice()].concat();
        Field::at(&longer, place).unwrap().0.to_string()
    });
    let expected = [
        "the count of directories",
        "the length of the path of directory 0",
        "the path of directory 0",
        "the count of icons",
        "the length of the name of icon 0",
        "the name of icon 0",
        "the image count of icon 0",
        "image 1 of icon 2",
        "what follows the last icon",
    ];
    assert_eq!(names, expected);
}

fn kind(field: Field) -> Kind {
    match field {
        Field::DirectoryCount => Kind::DirectoryCount,
        Field::PathLength { .. } => Kind::PathLength,
        Field::Path { .. } => Kind::Path,
        Field::IconCount => Kind::IconCount,
        Field::NameLength { .. } => Kind::NameLength,
        Field::Name { .. } => Kind::Name,
        Field::ImageCount { .. } => Kind::ImageCount,
        Field::Image { .. } => Kind::Image,
        Field::Extra => panic!("nothing follows"),
    }
}

/// Counts and lengths that no field can say are refused at that field, unless one before
/// it is.
#[test]
fn what_no_field_can_say() {
    let refused = |catalogue: &Catalogue| {
        let refusal = catalogue.to_bytes().unwrap_err();
        assert_eq!(refusal.number, Refusal::BAD_FIELD);
        refusal.place
    };
    let icon = |name: usize, images: usize| Icon {
        name: vec![b'n'; name],
        images: vec![
            Image {
                directory: 0,
                flags: 0,
                data_offset: 0,
            };
            images
        ],
    };
    let catalogue = |directories: Vec<Vec<u8>>, icons| Catalogue { directories, icons };
    let one = vec![b"16".to_vec()];
    assert!(catalogue(one.clone(), vec![icon(255, 1_024)])
        .to_bytes()
        .is_ok());
    assert_eq!(refused(&catalogue(one.clone(), vec![icon(256, 0)])), 8);
    assert_eq!(refused(&catalogue(one.clone(), vec![icon(1, 1_025)])), 10);
    assert_eq!(refused(&catalogue(one.clone(), vec![icon(1, 65_536)])), 10);
    assert_eq!(refused(&catalogue(one.clone(), vec![icon(0, 0)])), 8);
    let icons = vec![icon(1, 0); 65_536];
    assert_eq!(refused(&catalogue(one.clone(), icons)), 6);
    let long = vec![vec![b'p'; 65_536]];
    assert_eq!(refused(&catalogue(long.clone(), vec![])), 2);
    let both = [vec![b"..".to_vec()], long].concat();
    assert_eq!(refused(&catalogue(both, vec![])), 4);
    assert_eq!(refused(&catalogue(vec![b"16".to_vec(); 65_536], vec![])), 0);
}
