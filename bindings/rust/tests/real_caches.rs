//! Caches of real icon themes: the check, each record, each name, picks of it, and
//! each directory.
//!
//! Their sizes are known, so that a walk over fewer icons does not pass.

mod reader;
mod side_by_side;

use icon_cache::notes::{self, DisplayName, Point, Rectangle};
use icon_cache::{check, lookup, records, Checked, Record, Refusal};
use reader::Position;
use side_by_side::Pair;
use std::collections::{HashMap, HashSet};

#[test]
fn hicolor() {
    walk(include_bytes!("data/hicolor.cache"), 2, 5, 1);
}

#[test]
fn tango() {
    walk(include_bytes!("data/Tango.cache"), 849, 48, 8);
}

/// Made by gtk-update-icon-cache of a file with each suffix.
const SUFFIXES: &[u8] = include_bytes!("data/suffixes.cache");

#[test]
fn suffixes() {
    walk(SUFFIXES, 5, 2, 1);
}

/// Made by gtk-update-icon-cache 3.24.38 of pictures of 8 and 16 pixels: cow in both
/// sizes and hen, each with an .icon file, and oat without. It has their notes.
const NOTES: &[u8] = include_bytes!("data/notes.cache");

/// The same with --include-image-data: the pixels of each picture too.
const PIXELS: &[u8] = include_bytes!("data/pixels.cache");

#[test]
fn notes_and_pixels() {
    walk(NOTES, 3, 2, 1);
    walk(PIXELS, 3, 2, 1);
}

fn walk(cache: &[u8], icons: usize, directories: usize, longest: usize) {
    let expected = Checked {
        directories,
        icons,
        opened: icons,
        longest,
    };
    assert_eq!(check(cache), Ok(expected));
    let pair = Pair::new(cache);
    assert_eq!(pair.check().unwrap().number, 0);
    assert_eq!(pair.check_long().unwrap().number, 0);
    for data in reader::notes::data_offsets(cache) {
        ask_notes(&pair, cache, data);
    }

    let names = reader::names(cache);
    assert_eq!(names.len(), icons);
    list(&pair, cache, &names);
    let words = words(directories);
    for name in names {
        ask_name(&pair, name);
        ask_picks(&pair, name, &words);
    }
    let (listed, buckets) = reader::sizes(cache).unwrap();
    assert_eq!(listed, directories);
    println!("{icons} icons in {buckets} buckets, {directories} directories");
    for index in 0..directories {
        ask_directory(&pair, cache, index);
    }
    assert_eq!(pair.directory(directories).unwrap().number, 15);
}

/// Each record comes once, step by step and from the iterator, and a lookup finds
/// the first of its name.
fn list(pair: &Pair, cache: &[u8], names: &[&[u8]]) {
    let listed: Result<Vec<Record>, Refusal> = records(cache).collect();
    let listed = listed.unwrap();
    assert!(listed
        .iter()
        .map(|record| record.name)
        .eq(names.iter().copied()));
    let mut position = Position::START;
    for record in &listed {
        let step = pair.list(position).unwrap();
        assert_eq!((step.number, step.record), (0, record.offset));
        position = step.position;
    }
    assert_eq!(pair.list(position).unwrap().number, 28);
    let offsets: HashSet<usize> = listed.iter().map(|record| record.offset).collect();
    assert_eq!(offsets.len(), listed.len());

    let mut first = HashMap::new();
    for record in listed {
        let offset = *first.entry(record.name).or_insert(record.offset);
        assert_eq!(lookup(cache, record.name).unwrap().record, offset);
    }
}

/// The pair compares the safe answers too.
fn ask_name(pair: &Pair, name: &[u8]) {
    let need = 2 * pair.lookup(name, 0).unwrap().0.images;
    let (found, _) = pair.lookup(name, need + 2).unwrap();
    assert_eq!(found.number, 0);
    assert_eq!(pair.lookup(name, need).unwrap().0, found);

    // The name with a byte more is another one.
    let longer = [name, b"~"].concat();
    assert_eq!(pair.lookup(&longer, need).unwrap().0.number, 30);
}

/// Words that differ from directory to directory, of each type.
fn words(directories: usize) -> Vec<u32> {
    let words = (0..directories as u32).flat_map(|index| {
        let size = 16 * (1 + index % 4);
        [index % 3, size, 1 + index % 2, size, 2 * size, 8]
    });
    words.collect()
}

fn ask_picks(pair: &Pair, name: &[u8], words: &[u32]) {
    for (size, scale) in [(16, 1), (24, 1), (40, 2), (64, 2), (200, 1), (48, 3)] {
        assert_eq!(pair.pick(name, size, scale, words).unwrap().number, 0);
    }
    let too_few = &words[..words.len() - 6];
    assert_eq!(pair.pick(name, 16, 1, too_few).unwrap().number, 31);
}

fn ask_notes(pair: &Pair, cache: &[u8], data: usize) {
    pair.rectangle(data).unwrap();
    pair.all_entries(data).unwrap();
    let [points, names] = reader::notes::counts(cache, data);
    for entry in 0..=points {
        let number = pair.attach_point(data, entry).unwrap().number;
        assert_eq!(number, if entry < points { 0 } else { 33 });
    }
    for entry in 0..=names {
        let language = pair.display_language(data, entry).unwrap();
        let text = pair.display_name(data, entry).unwrap();
        let number = if entry < names { 0 } else { 33 };
        assert_eq!((language.number, text.number), (number, number));
    }
}

fn ask_directory(pair: &Pair, cache: &[u8], index: usize) {
    assert_eq!(pair.directory(index).unwrap().number, 0);
    let path = pair.directory_path(index).unwrap();
    assert_eq!(path.number, 0);
    assert_eq!(cache[path.start + path.length], 0);
}

#[test]
fn gvim_of_hicolor() {
    let cache = include_bytes!("data/hicolor.cache");
    let found = lookup(cache, b"gvim").unwrap();
    let images: Vec<_> = found
        .images
        .iter()
        .map(|i| (i.directory, i.flags))
        .collect();
    assert_eq!(found.record, 120);
    assert_eq!(images, [(4, 2), (3, 4)]);
}

/// The notes on an image: its rectangle, its attach points and its display names.
type Noted<'a> = (Option<Rectangle>, Vec<Point>, Vec<DisplayName<'a>>);

fn noted(cache: &[u8], data: usize) -> Noted<'_> {
    let rectangle = notes::rectangle(cache, data).ok();
    let points: Result<_, _> = notes::attach_points(cache, data).collect();
    let names: Result<_, _> = notes::display_names(cache, data).collect();
    (rectangle, points.unwrap(), names.unwrap())
}

fn points(points: &[(u16, u16)]) -> Vec<Point> {
    let points = points.iter().map(|&(x, y)| Point { x, y });
    points.collect()
}

fn names(names: &[[&'static str; 2]]) -> Vec<DisplayName<'static>> {
    let names = names.iter().map(|[language, text]| DisplayName {
        language: language.as_bytes(),
        text: text.as_bytes(),
    });
    names.collect()
}

/// What the .icon files say. A DisplayName without a language is that of "C".
#[test]
fn notes_of_known_files() {
    let rectangle = |x0, y0, x1, y1| Some(Rectangle { x0, y0, x1, y1 });
    let small_cow = (
        // EmbeddedTextRectangle=1,2,6,7 and AttachPoints=0,0|7,0|3,4
        rectangle(1, 2, 6, 7),
        points(&[(0, 0), (7, 0), (3, 4)]),
        names(&[["C", "Cow"], ["de", "Kuh"], ["fr", "Vache à lait"]]),
    );
    let large_cow = (rectangle(2, 4, 12, 14), vec![], names(&[["de", "Kuh"]]));
    let hen = (None, points(&[(7, 7)]), names(&[["C", "Hen"]]));
    let oat = (None, vec![], vec![]);
    for cache in [NOTES, PIXELS] {
        let notes = |icon: &[u8], image: usize| {
            let images = lookup(cache, icon).unwrap().images;
            noted(cache, images[image].data_offset as usize)
        };
        assert_eq!(notes(b"cow", 0), small_cow);
        assert_eq!(notes(b"cow", 1), large_cow);
        assert_eq!(notes(b"hen", 0), hen);
        assert_eq!(notes(b"oat", 0), oat);
    }
    let images = lookup(SUFFIXES, b"described").unwrap().images;
    let one = (None, vec![], names(&[["C", "One"]]));
    assert_eq!(noted(SUFFIXES, images[0].data_offset as usize), one);
    // Without --include-image-data an image without an .icon file has no data.
    assert_eq!(lookup(NOTES, b"oat").unwrap().images[0].data_offset, 0);
    assert_ne!(lookup(PIXELS, b"oat").unwrap().images[0].data_offset, 0);
}

/// Nine of Tango's images have attach points, in thousandths of the picture's size.
#[test]
fn notes_of_tango() {
    let cache = include_bytes!("data/Tango.cache");
    let corners = points(&[(200, 200), (800, 200), (800, 800), (200, 800)]);
    let others = points(&[(200, 800), (800, 800), (800, 80), (200, 80)]);
    let mut offsets = reader::notes::data_offsets(cache);
    assert_eq!((offsets.remove(0), offsets.len()), (0, 9));
    for data in offsets {
        let (rectangle, points, names) = noted(cache, data);
        assert_eq!((rectangle, names), (None, vec![]));
        assert!(points == corners || points == others, "{points:?}");
    }
}
