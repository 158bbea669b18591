//! The pick. It reckons in numbers that are wider than the words, so that no
//! distance wraps.

use super::{fault, find, number, tables, Fault};

#[derive(Clone, Copy, Debug, PartialEq, Eq)]
pub struct Pick {
    pub number: u32,
    /// The image, or the place of the fault.
    pub place: usize,
    /// How many images stand before it; all of them if none fits.
    pub passed: usize,
}

pub fn pick(cache: &[u8], name: &[u8], size: u32, scale: u32, directories: &[u32]) -> Pick {
    let (number, place, passed) = match first_that_fits(cache, name, size, scale, directories) {
        Ok((place, passed)) => (0, place, passed),
        Err(fault) => (fault.number, fault.place, 0),
    };
    Pick {
        number,
        place,
        passed,
    }
}

/// The place of the image, 0 if there is none, and how many don't fit before it.
fn first_that_fits(
    cache: &[u8],
    name: &[u8],
    size: u32,
    scale: u32,
    directories: &[u32],
) -> Result<(usize, usize), Fault> {
    let icon = find(cache, name).map_err(|(fault, _)| fault)?.icon;
    if directories.len() != 6 * tables(cache)?.directories {
        return Err(fault(31, 0));
    }
    let directories: Vec<&[u32]> = directories.chunks(6).collect();
    if let Some(directory) = directories.iter().position(|words| words[0] > 2) {
        return Err(fault(32, 6 * directory));
    }
    let fitting = |image: usize| {
        let words = directories.get(number(cache, image, 2));
        words.is_some_and(|words| fits(words, size, scale))
    };
    let passed = (0..icon.images).take_while(|&i| !fitting(icon.image(i)));
    match passed.count() {
        all if all == icon.images => Ok((0, all)),
        passed => Ok((icon.image(passed), passed)),
    }
}

fn fits(words: &[u32], size: u32, scale: u32) -> bool {
    let word = |i: usize| i64::from(words[i]);
    let size = i64::from(size);
    let by_type = match word(0) {
        0 => word(1) == size,
        1 => (word(3)..=word(4)).contains(&size),
        _ => (word(1) - size).abs() <= word(5),
    };
    by_type && words[2] == scale
}

/// The directory index, the flags and the data offset of an image that was picked.
pub fn image(cache: &[u8], place: usize) -> (u16, u16, u32) {
    let index = number(cache, place, 2) as u16;
    let flags = number(cache, place + 2, 2) as u16;
    (index, flags, number(cache, place + 4, 4) as u32)
}
