//! Picks from the farm cache and others, asked of the library and of the reader.

// They are written for other tests, which use more of them.
#[allow(dead_code)]
mod reader;
#[allow(dead_code)]
mod side_by_side;

use icon_cache::{Refusal, FARM_CACHE};
use side_by_side::Pair;
use std::ops::Range;

/// The images of cow, in the directories 0 and 1, and the one of oat, in 0.
const COW_0: usize = 80;
const COW_1: usize = 88;
const OAT_0: usize = 68;

const MAX: u32 = u32::MAX;

type Words = [u32; 6];

fn fixed(size: u32) -> Words {
    [0, size, 1, 7, 7, 7]
}

fn scalable(smallest: u32, largest: u32) -> Words {
    [1, 7, 1, smallest, largest, 7]
}

fn threshold(size: u32, threshold: u32) -> Words {
    [2, size, 1, 7, 7, threshold]
}

/// What no size of these tests fits.
const NEVER: Words = [0, 12_345, 1, 0, 0, 0];

/// The answer number and the place.
fn pick(cache: &[u8], name: &str, size: u32, scale: u32, words: &[u32]) -> (u32, usize) {
    let pair = Pair::new(cache);
    let answer = pair.pick(name.as_bytes(), size, scale, words).unwrap();
    (answer.number, answer.place)
}

/// At scale 1 from the farm cache, with these directories.
fn pick_cow(size: u32, directories: [Words; 2]) -> (u32, usize) {
    pick(FARM_CACHE, "cow", size, 1, directories.as_flattened())
}

/// Whether a directory fits the size: that of the second image, as the first never
/// does.
fn fits(size: u32, directory: Words) -> bool {
    match pick_cow(size, [NEVER, directory]) {
        (0, COW_1) => true,
        (0, 0) => false,
        other => panic!("{other:?}"),
    }
}

fn demand_sizes(directory: Words, fitting: &[u32], others: &[u32]) {
    for &size in fitting {
        assert!(fits(size, directory), "{directory:?} fits {size}");
    }
    for &size in others {
        assert!(!fits(size, directory), "{directory:?} doesn't fit {size}");
    }
}

#[test]
fn fixed_directories() {
    demand_sizes(fixed(48), &[48], &[0, 7, 47, 49, MAX]);
    demand_sizes(fixed(0), &[0], &[1, MAX]);
    demand_sizes(fixed(MAX), &[MAX], &[0, MAX - 1]);
}

#[test]
fn scalable_directories() {
    demand_sizes(scalable(16, 48), &[16, 17, 47, 48], &[0, 7, 15, 49, MAX]);
    demand_sizes(scalable(48, 48), &[48], &[47, 49]);
    demand_sizes(scalable(0, MAX), &[0, 1, 48, MAX - 1, MAX], &[]);
    demand_sizes(scalable(0, 0), &[0], &[1, MAX]);
    demand_sizes(scalable(MAX, MAX), &[MAX], &[0, MAX - 1]);
}

/// Only the order of the two says that nothing fits.
#[test]
fn smallest_above_largest() {
    demand_sizes(scalable(48, 47), &[], &[0, 46, 47, 48, 49, MAX]);
    demand_sizes(scalable(MAX, 0), &[], &[0, 1, 48, MAX]);
    demand_sizes(scalable(1, 0), &[], &[0, 1, 2, MAX]);
}

#[test]
fn threshold_directories() {
    demand_sizes(threshold(48, 2), &[46, 47, 48, 49, 50], &[45, 51, 0, MAX]);
    demand_sizes(threshold(48, 0), &[48], &[47, 49]);
    demand_sizes(threshold(48, 48), &[0, 96], &[97, MAX]);
    demand_sizes(threshold(48, 47), &[1, 95], &[0, 96]);
}

/// In 32 bits a sum or a difference of these would wrap.
#[test]
fn distances_that_could_wrap() {
    demand_sizes(threshold(2, 3), &[0, 5], &[6, MAX - 1, MAX]);
    demand_sizes(threshold(0, 2), &[0, 1, 2], &[3, MAX - 1, MAX]);
    demand_sizes(threshold(MAX, 2), &[MAX - 2, MAX], &[0, 1, MAX - 3]);
    demand_sizes(threshold(MAX - 1, 2), &[MAX - 3, MAX], &[0, 1, MAX - 4]);
    for size in [0, 2, 48, 1 << 31, MAX - 1, MAX] {
        let all = [0, 1, 2, 48, 1 << 31, MAX - 1, MAX];
        demand_sizes(threshold(size, MAX), &all, &[]);
    }
    demand_sizes(threshold(0, MAX - 1), &[0, MAX - 1], &[MAX]);
    demand_sizes(threshold(MAX, MAX - 1), &[1, MAX], &[0]);
    // The distance has its highest bit set, or the threshold has.
    demand_sizes(threshold(0, 1), &[1], &[1 << 31, (1 << 31) + 1]);
    demand_sizes(threshold(0, 1 << 31), &[1 << 31], &[(1 << 31) + 1]);
}

#[test]
fn another_scale() {
    for mut directory in [fixed(48), scalable(1, 99), threshold(48, 2)] {
        for scale in [0, 1, 2, MAX] {
            directory[2] = scale;
            let words = [NEVER, directory];
            for asked in [0, 1, 2, MAX] {
                let place = if asked == scale { COW_1 } else { 0 };
                let answer = pick(FARM_CACHE, "cow", 48, asked, words.as_flattened());
                assert_eq!(answer, (0, place), "{directory:?} at {asked}");
            }
        }
    }
}

#[test]
fn the_first_in_the_order_of_the_list() {
    let both = [scalable(1, 99), fixed(48)];
    assert_eq!(pick_cow(48, both), (0, COW_0));
    assert_eq!(pick_cow(48, [fixed(16), fixed(48)]), (0, COW_1));
    assert_eq!(pick_cow(16, [fixed(16), fixed(48)]), (0, COW_0));
    assert_eq!(pick_cow(17, [fixed(16), fixed(48)]), (0, 0));

    // The list has directory 1 before directory 0.
    let mut cache = FARM_CACHE.to_vec();
    cache[80..96].rotate_left(8);
    let answer = pick(&cache, "cow", 48, 1, both.as_flattened());
    assert_eq!(answer, (0, COW_0));
    let answer = pick(&cache, "cow", 16, 1, both.as_flattened());
    assert_eq!(answer, (0, COW_1));
}

/// Directory 1 would fit, but oat has no image there.
#[test]
fn only_the_icons_own_images_count() {
    let words = [fixed(16), fixed(48)];
    let words = words.as_flattened();
    assert_eq!(pick(FARM_CACHE, "oat", 16, 1, words), (0, OAT_0));
    assert_eq!(pick(FARM_CACHE, "hen", 16, 1, words), (0, OAT_0));
    assert_eq!(pick(FARM_CACHE, "oat", 48, 1, words), (0, 0));
}

/// The farm cache with another number of four bytes at an offset.
fn farm_with(offset: usize, value: u32) -> Vec<u8> {
    let mut cache = FARM_CACHE.to_vec();
    cache[offset..][..4].copy_from_slice(&value.to_be_bytes());
    cache
}

#[test]
fn an_icon_without_images() {
    let cache = farm_with(76, 0);
    let words = [scalable(0, MAX); 2];
    assert_eq!(pick(&cache, "cow", 48, 1, words.as_flattened()), (0, 0));
}

#[test]
fn too_few_and_too_many_words() {
    let words = [scalable(0, MAX); 4];
    let words = words.as_flattened();
    for length in [0, 1, 5, 6, 7, 11, 13, 18, 24] {
        let answer = pick(FARM_CACHE, "cow", 48, 1, &words[..length]);
        assert_eq!(answer, (31, 0), "{length} words");
    }
    assert_eq!(pick(FARM_CACHE, "cow", 48, 1, &words[..12]), (0, COW_0));
    // Also where no image would be picked.
    assert_eq!(pick(&farm_with(76, 0), "cow", 48, 1, &words[..6]), (31, 0));
}

#[test]
fn types_above_2() {
    let sound = scalable(0, MAX);
    for kind in [3, 4, 256, 1 << 16, 1 << 31, MAX - 1, MAX] {
        let mut bad = sound;
        bad[0] = kind;
        assert_eq!(pick_cow(48, [bad, sound]), (32, 0));
        assert_eq!(pick_cow(48, [sound, bad]), (32, 6));
        assert_eq!(pick_cow(48, [bad, bad]), (32, 0));

        // Of a directory that no image names.
        let words = [sound, bad];
        let words = words.as_flattened();
        assert_eq!(pick(FARM_CACHE, "oat", 48, 1, words), (32, 6));
        assert_eq!(pick(&farm_with(76, 0), "cow", 48, 1, words), (32, 6));

        // The number of words comes first.
        for length in [7, 11] {
            assert_eq!(pick(FARM_CACHE, "cow", 48, 1, &words[..length]), (31, 0));
        }
    }
}

/// The other words may be any numbers.
#[test]
fn only_the_type_is_judged() {
    for kind in [0, 1, 2] {
        for word in [0, 3, MAX] {
            let directory = [kind, word, word, word, word, word];
            let answer = pick_cow(48, [directory; 2]);
            assert_eq!(answer.0, 0);
        }
    }
}

/// The lookup's refusals come first, whatever the words are.
#[test]
fn refusals_of_the_lookup_come_first() {
    let bad_type = [[3; 6]; 2];
    for words in [&[], bad_type.as_flattened(), &[3; 7]] {
        for (cache, name, answer) in [
            (vec![], "", (13, 0)),
            (FARM_CACHE.to_vec(), "o\0t", (13, 0)),
            (FARM_CACHE[..11].to_vec(), "cow", (1, 0)),
            (farm_with(0, 0x0001_0001), "cow", (3, 0)),
            (farm_with(8, 126), "cow", (4, 8)),
            (farm_with(12, 0), "cow", (5, 4)),
            (farm_with(24, 126), "cow", (7, 24)),
            (farm_with(56, 125), "cow", (8, 56)),
            (farm_with(56, 126), "cow", (17, 56)),
            (farm_with(20, 28), "a", (9, 32)),
            (farm_with(60, 126), "cow", (10, 60)),
            (farm_with(88, 0x0002_0004), "cow", (11, 88)),
            (farm_with(40, 28), "ewe", (12, 16)),
            (FARM_CACHE.to_vec(), "pig", (30, 0)),
        ] {
            assert_eq!(pick(&cache, name, 48, 1, words), answer, "{name}");
        }
    }
}

/// A path that leads elsewhere, an empty one, and one that runs off the end.
#[test]
fn paths_are_not_judged() {
    let words = [scalable(0, MAX); 2];
    let mut cache = FARM_CACHE.to_vec();
    cache[108..110].copy_from_slice(b"..");
    for cache in [cache, farm_with(100, 125), farm_with(100, 126)] {
        let answer = pick(&cache, "cow", 48, 1, words.as_flattened());
        assert_eq!(answer, (0, COW_0));
    }
}

/// A cache without directories whose one icon, "n", has so many images.
fn without_directories(images: u32) -> Vec<u8> {
    let mut fields = vec![0x0001_0000, 16, 12, 0, 1, 28, 0x6E00_0000];
    fields.extend([0xFFFF_FFFF, 24, 40, images]);
    fields.extend([0xFFFF_0001, 0].repeat(images as usize));
    let bytes = fields.iter().flat_map(|field: &u32| field.to_be_bytes());
    bytes.collect()
}

#[test]
fn an_image_without_a_directory_never_fits() {
    for images in [0, 1, 3] {
        let cache = without_directories(images);
        for (size, scale) in [(0, 0), (0, 1), (48, 1), (MAX, MAX)] {
            assert_eq!(pick(&cache, "n", size, scale, &[]), (0, 0));
            let words = scalable(0, MAX);
            assert_eq!(pick(&cache, "n", size, scale, &words), (31, 0));
        }
        assert_eq!(pick(&cache, "m", 48, 1, &[]), (30, 0));
    }
}

/// A cache of so many directories whose one icon, "n", has an image in each of those
/// named, in order. The first image stands behind the number of them, which is at
/// 40 + 4 * count.
fn with_directories(count: u32, named: Range<u32>) -> Vec<u8> {
    let strings = u32::from_be_bytes(*b"n\0d\0");
    let images = 40 + 4 * count;
    let mut fields = vec![0x0001_0000, 16, 36, strings];
    fields.extend([1, 24, 0xFFFF_FFFF, 12, images, count]);
    fields.extend(vec![14; count as usize]);
    fields.push(named.len() as u32);
    fields.extend(named.flat_map(|index| [index << 16, 7]));
    let bytes = fields.iter().flat_map(|field| field.to_be_bytes());
    bytes.collect()
}

/// As many as a list may have.
#[test]
fn the_last_of_many_images() {
    let count = 1_024;
    let cache = with_directories(count, 0..count);
    let place = |image: usize| 44 + 4 * count as usize + 8 * image;

    let mut directories = vec![NEVER; count as usize];
    let last = directories.len() - 1;
    let answer = pick(&cache, "n", 48, 1, directories.as_flattened());
    assert_eq!(answer, (0, 0));
    directories[last] = fixed(48);
    let answer = pick(&cache, "n", 48, 1, directories.as_flattened());
    assert_eq!(answer, (0, place(last)));
    directories[last][0] = 3;
    let answer = pick(&cache, "n", 48, 1, directories.as_flattened());
    assert_eq!(answer, (32, 6 * last));
}

/// As many as a cache may have. Only the last of them has an image.
#[test]
fn the_last_of_many_directories() {
    let cache = with_directories(65_535, 0xFFFE..0xFFFF);
    let image = 44 + 4 * 65_535;
    let last = 0xFFFE;
    let pick = |directories: &[Words]| pick(&cache, "n", 48, 1, directories.as_flattened());

    let mut directories = vec![fixed(48); 65_535];
    directories[last] = NEVER;
    assert_eq!(pick(&directories), (0, 0));
    directories.fill(NEVER);
    directories[last] = fixed(48);
    assert_eq!(pick(&directories), (0, image));
    directories[last][0] = 3;
    assert_eq!(pick(&directories), (32, 393_204));

    // One directory fewer, and one more.
    assert_eq!(pick(&directories[..last]), (31, 0));
    directories.push(NEVER);
    assert_eq!(pick(&directories), (31, 0));
}

/// The numbers that callers tell apart, by their names.
#[test]
fn the_refusals_have_names() {
    let refused = |words: &[u32]| icon_cache::pick(FARM_CACHE, b"cow", 48, 1, words).unwrap_err();
    assert_eq!(refused(&[]).number, Refusal::WRONG_WORD_COUNT);
    assert_eq!(refused(&[3; 12]).number, Refusal::BAD_TYPE);
}
