//! A size, a scale and the words of the directories, as a caller may make them up.

use super::Random;

pub struct Wanted {
    pub size: u32,
    pub scale: u32,
    pub directories: Vec<u32>,
}

/// Numbers at which a distance or a bound may wrap or change its sign.
const ENDS: [u32; 6] = [0, 1, i32::MAX as u32, 1 << 31, u32::MAX - 1, u32::MAX];

impl Wanted {
    /// For a cache of so many directories, of which about half fit. Now and then a
    /// type is not allowed, or the number of words is wrong.
    pub fn make(random: &mut Random, directories: usize) -> Wanted {
        let size = around(random, 48);
        let scale = around(random, 1);
        let words = (0..directories).flat_map(|_| words(random, size, scale));
        let mut words: Vec<u32> = words.collect();
        if random.one_in(8) {
            set_types(random, &mut words);
        }
        if random.one_in(8) {
            set_length(random, &mut words);
        }
        Wanted {
            size,
            scale,
            directories: words,
        }
    }
}

/// The number itself, one beside it, one at the ends, or any.
fn around(random: &mut Random, number: u32) -> u32 {
    match random.below(8) {
        0..=3 => number,
        4 => number.wrapping_add(1),
        5 => number.wrapping_sub(1),
        6 => ENDS[random.below(ENDS.len())],
        _ => random.next() as u32,
    }
}

fn words(random: &mut Random, size: u32, scale: u32) -> [u32; 6] {
    let its_size = around(random, size);
    let its_scale = if random.one_in(4) {
        around(random, scale)
    } else {
        scale
    };
    [
        random.below(3) as u32,
        its_size,
        its_scale,
        around(random, size),
        around(random, size),
        around(random, size.abs_diff(its_size)),
    ]
}

/// One or two types above 2, some of them allowed in their low bits.
fn set_types(random: &mut Random, words: &mut [u32]) {
    let directories = words.len() / 6;
    if directories == 0 {
        return;
    }
    for _ in 0..random.between(1, 2) {
        let types = [3, 4, 256, 1 << 16, 1 << 31, u32::MAX];
        words[6 * random.below(directories)] = types[random.below(types.len())];
    }
}

/// A word or a directory too few or too many, or none at all.
fn set_length(random: &mut Random, words: &mut Vec<u32>) {
    let length = words.len();
    let lengths = [
        0,
        length.saturating_sub(6),
        length.saturating_sub(1),
        length + 1,
        length + 6,
        2 * length,
    ];
    words.resize(lengths[random.below(lengths.len())], 0);
}
