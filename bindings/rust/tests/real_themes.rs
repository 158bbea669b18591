//! The icon themes that are installed: each `index.theme` is read, and picks from each
//! cache are compared with what lookups and the lines of the file say.
//!
//! The environment variable ICON_CACHE_THEMES names another folder of themes.

use icon_cache::{directory, lookup, pick, records, Picked, Theme, ThemeError, ThemeFault};
use std::collections::{HashMap, HashSet};
use std::path::PathBuf;
use std::{env, fs, str};

/// An `index.theme`, and where it stands.
struct Installed {
    folder: PathBuf,
    text: Vec<u8>,
}

fn installed() -> Vec<Installed> {
    let folder = env::var_os("ICON_CACHE_THEMES").unwrap_or("/usr/share/icons".into());
    let folders = fs::read_dir(&folder).into_iter().flatten();
    let themes = folders.filter_map(|theme| {
        let folder = theme.ok()?.path();
        let text = fs::read(folder.join("index.theme")).ok()?;
        Some(Installed { folder, text })
    });
    let themes: Vec<_> = themes.collect();
    if themes.is_empty() {
        println!("no icon themes are installed: nothing is tested");
    }
    themes
}

/// A theme of nothing but cursors lists no directories, and GTK doesn't load it. Some
/// themes have numbers such as `12px`; GTK reads a MinSize of `12px` as 0.
#[test]
fn each_index_theme_is_read() {
    for Installed { folder, text } in installed() {
        match Theme::parse(&text) {
            Ok(_) => println!("{} is read", folder.display()),
            Err(error) => {
                println!("{}: {error}", folder.display());
                let text = str::from_utf8(&text).expect("themes are UTF-8");
                assert!(has_fault(text, &error), "the file doesn't have this fault");
            }
        }
    }
}

/// Whether the lines of the file say so too, for the faults that themes have.
fn has_fault(text: &str, error: &ThemeError) -> bool {
    match error.fault {
        ThemeFault::NoDirectories => !text.lines().any(lists_directories),
        ThemeFault::BadNumber => {
            let line = text.lines().nth(error.line - 1);
            let value = line.and_then(|line| line.split_once('='));
            value.is_some_and(|(_, value)| !is_number(value.trim()))
        }
        _ => false,
    }
}

fn lists_directories(line: &str) -> bool {
    let rest = line.trim().strip_prefix("Directories");
    rest.is_some_and(|rest| rest.trim_start().starts_with('='))
}

fn is_number(value: &str) -> bool {
    value.bytes().all(|byte| byte.is_ascii_digit()) && value.parse::<u32>().is_ok()
}

#[test]
fn picks_from_each_cache() {
    let picked: usize = installed().iter().filter_map(picks_of).sum();
    if picked == 0 {
        println!("no theme with a cache has an image that fits: no picks are tested");
    }
}

/// The number of images picked from a theme that has a cache and is read.
fn picks_of(theme: &Installed) -> Option<usize> {
    let Installed { folder, text } = theme;
    let cache = fs::read(folder.join("icon-theme.cache")).ok()?;
    let theme = Theme::parse(text).ok()?;
    let text = str::from_utf8(text).expect("the theme is read");
    let picked = compare_picks(&cache, &theme, &Description::of(text));
    println!("{}: {picked} images are picked", folder.display());
    Some(picked)
}

/// Picks each icon for some sizes and scales, and gives the number of images picked.
fn compare_picks(cache: &[u8], theme: &Theme, description: &Description) -> usize {
    let words = theme.words(cache).expect("the cache is sound");
    let mut picked = 0;
    for size in [8, 16, 22, 24, 31, 48, 64, 128, 256, 1_000] {
        for scale in [1, 2] {
            let fitting = description.fitting(size.into(), scale.into());
            for record in records(cache) {
                let name = record.expect("the cache is sound").name;
                let expected = first_image(cache, name, &fitting);
                let answer = pick(cache, name, size, scale, &words);
                assert_eq!(answer, Ok(expected), "{name:02x?}, {size} at {scale}");
                picked += usize::from(expected.is_some());
            }
        }
    }
    picked
}

/// The first image of an icon in one of these directories.
fn first_image(cache: &[u8], name: &[u8], fitting: &HashSet<&[u8]>) -> Option<Picked> {
    let found = lookup(cache, name).expect("the name is there");
    let field = cache[found.record + 8..].first_chunk();
    let list = u32::from_be_bytes(*field.expect("the record lies inside")) as usize;
    let places = (list + 4..).step_by(8);
    let mut images = places.zip(found.images);
    let (place, image) = images.find(|(_, image)| {
        let path = directory(cache, image.directory.into());
        path.is_ok_and(|path| fitting.contains(path))
    })?;
    Some(Picked { place, image })
}

/// The last value of each key, by group.
struct Description<'a>(HashMap<(&'a str, &'a str), &'a str>);

impl<'a> Description<'a> {
    fn of(text: &'a str) -> Self {
        let mut values = HashMap::new();
        let mut group = "";
        for line in text.lines() {
            if let Some(name) = line.trim().strip_prefix('[') {
                group = name.trim_end_matches([']', '/']);
            } else if let Some((key, value)) = line.split_once('=') {
                values.insert((group, key.trim()), value.trim());
            }
        }
        Description(values)
    }

    /// The paths of the listed directories that are made for the size and the scale.
    fn fitting(&self, size: i64, scale: i64) -> HashSet<&'a [u8]> {
        let lists = ["Directories", "ScaledDirectories"];
        let lists = lists.map(|key| self.0.get(&("Icon Theme", key)).copied());
        let entries = lists.into_iter().flatten().flat_map(|list| list.split(','));
        let paths = entries.map(|entry| entry.trim().trim_end_matches('/'));
        let fitting = paths.filter(|path| self.fits(path, size, scale) == Some(true));
        fitting.map(str::as_bytes).collect()
    }

    /// As the specification has it; nothing for a directory without a size.
    fn fits(&self, path: &str, size: i64, scale: i64) -> Option<bool> {
        let number = |key| self.0.get(&(path, key))?.parse::<i64>().ok();
        let its_size = number("Size")?;
        let by_type = match self.0.get(&(path, "Type")).copied() {
            Some("Fixed") => size == its_size,
            Some("Scalable") => {
                number("MinSize").unwrap_or(its_size) <= size
                    && size <= number("MaxSize").unwrap_or(its_size)
            }
            _ => (size - its_size).abs() <= number("Threshold").unwrap_or(2),
        };
        Some(by_type && scale == number("Scale").unwrap_or(1))
    }
}
