//! The rules by which two other programs read a cache: GTK's (gtkiconcache.c and
//! gtkiconcachevalidator.c) and Qt's (QIconCacheGtkReader in qiconloader.cpp).

const END: usize = 0xFFFF_FFFF;

fn number(cache: &[u8], at: usize, bytes: usize) -> Option<usize> {
    let field = cache.get(at..at + bytes)?;
    Some(field.iter().fold(0, |n, byte| n << 8 | usize::from(*byte)))
}

/// The bytes before the first zero byte.
fn string(cache: &[u8], at: usize) -> Option<&[u8]> {
    let rest = cache.get(at..)?;
    let length = rest.iter().position(|byte| *byte == 0)?;
    Some(&rest[..length])
}

/// Both take the bytes of a name as signed.
fn hash(name: &[u8]) -> usize {
    let step = |h: u32, byte: &u8| (h << 5).wrapping_sub(h).wrapping_add(*byte as i8 as u32);
    name.iter().fold(0, step) as usize
}

/// It doesn't look whether what it reads lies inside: the validator has.
pub mod gtk {
    use super::{hash, number, string, END};

    fn long(cache: &[u8], at: usize) -> Option<usize> {
        number(cache, at, 4)
    }

    /// Whether the validator takes the cache, with its checks of offsets and strings. Image
    /// data is not looked at.
    pub fn is_valid(cache: &[u8]) -> bool {
        let valid = || -> Option<bool> {
            let version = (number(cache, 0, 2)?, number(cache, 2, 2)?);
            let list = long(cache, 8)?;
            let directories = long(cache, list)?;
            for i in 0..directories {
                text(cache, long(cache, list + 4 + 4 * i)?)?;
            }
            let hash = long(cache, 4)?;
            for i in 0..long(cache, hash)? {
                chain(cache, long(cache, hash + 4 + 4 * i)?, directories)?;
            }
            Some(version == (1, 0))
        };
        valid() == Some(true)
    }

    /// Letters, digits and signs only, and fewer than 1,024.
    fn text(cache: &[u8], at: usize) -> Option<()> {
        let text = string(cache, at)?;
        let is_good = text.len() < 1_024 && text.iter().all(u8::is_ascii_graphic);
        is_good.then_some(())
    }

    fn chain(cache: &[u8], mut icon: usize, directories: usize) -> Option<()> {
        while icon != END {
            text(cache, long(cache, icon + 4)?)?;
            let list = long(cache, icon + 8)?;
            for image in (list + 4..).step_by(8).take(long(cache, list)?) {
                let is_good =
                    number(cache, image, 2)? < directories && number(cache, image + 2, 2)? < 16;
                long(cache, image + 4).filter(|_| is_good)?;
            }
            icon = long(cache, icon)?;
        }
        Some(())
    }

    /// The index of the first directory of this path.
    pub fn directory_index(cache: &[u8], path: &[u8]) -> Option<usize> {
        let list = long(cache, 8)?;
        let mut indexes = 0..long(cache, list)?;
        indexes.find(|i| {
            let place = long(cache, list + 4 + 4 * i).unwrap();
            string(cache, place) == Some(path)
        })
    }

    /// The flags of the icon's first image in the directory.
    pub fn flags(cache: &[u8], name: &[u8], directory: usize) -> Option<usize> {
        let table = long(cache, 4)?;
        let bucket = hash(name) % long(cache, table)?;
        let mut icon = long(cache, table + 4 + 4 * bucket)?;
        while icon != END {
            if string(cache, long(cache, icon + 4)?)? == name {
                let list = long(cache, icon + 8)?;
                let mut images = (list + 4..).step_by(8).take(long(cache, list)?);
                let image = images.find(|image| number(cache, *image, 2) == Some(directory))?;
                return number(cache, image + 2, 2);
            }
            icon = long(cache, icon)?;
        }
        None
    }
}

/// It takes a number only from an offset that is a multiple of its width.
pub mod qt {
    use super::{hash, number, string};

    fn aligned(cache: &[u8], at: usize, bytes: usize) -> Option<usize> {
        number(cache, at, bytes).filter(|_| at % bytes == 0)
    }

    fn long(cache: &[u8], at: usize) -> Option<usize> {
        aligned(cache, at, 4)
    }

    /// The directories of an icon's images, none if it is absent; nothing if the cache is
    /// given up as broken.
    pub fn lookup<'a>(cache: &'a [u8], name: &[u8]) -> Option<Vec<&'a [u8]>> {
        if aligned(cache, 0, 2)? != 1 {
            return None;
        }
        let directory_list = long(cache, 8)?;
        let directories = long(cache, directory_list)?;
        let path = |i: usize| string(cache, long(cache, directory_list + 4 + 4 * i)?);
        for i in 0..directories {
            path(i)?;
        }
        let table = long(cache, 4)?;
        let bucket = hash(name).checked_rem(long(cache, table)?)?;
        let mut icon = long(cache, table + 4 + 4 * bucket)?;
        while icon > 0 && icon + 12 <= cache.len() {
            if string(cache, long(cache, icon + 4)?)? == name {
                let list = long(cache, icon + 8)?;
                let images = (list + 4..).step_by(8).take(long(cache, list)?);
                let paths = images.map(|image| {
                    let index = aligned(cache, image, 2)?;
                    path(index).filter(|_| index < directories)
                });
                return paths.collect();
            }
            icon = long(cache, icon)?;
        }
        Some(Vec::new())
    }
}
