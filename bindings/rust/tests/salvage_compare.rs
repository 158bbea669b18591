//! Compares what the library saves with what a second reader saves, over sound, damaged,
//! looped, crossed and tangled buffers, and looks whether what is saved can be used.
//!
//! `cargo test --test salvage_compare -- --nocapture` prints how often each row and each
//! refusal was met.

#[allow(dead_code)]
mod catalogues;
#[allow(dead_code)]
mod generator;
#[allow(dead_code)]
mod reader;
mod salvaging;

use catalogues::Icon;
use generator::{damage, rounds, series, tangled, Random, Sound};
use icon_cache::{check, lookup, Catalogue, Image};
use reader::salvage::{meetings, Of, Saved};
use salvaging::Both;
use std::collections::{BTreeMap, HashSet};

const SEED: u64 = 20_260_101;

/// From this length on only a few rooms are lent.
const LARGE: usize = 100_000;

/// How often each was met.
#[derive(Default)]
struct Counts {
    answers: BTreeMap<u32, usize>,
    rows: BTreeMap<u32, usize>,
    situations: BTreeMap<&'static str, usize>,
}

impl Counts {
    fn print(&self) {
        println!("answers {:?}", self.answers);
        println!("rows {:?}", self.rows);
        println!("situations {:#?}", self.situations);
    }

    fn demand_rows(&self, numbers: &[u32]) {
        for number in numbers {
            assert!(self.rows.contains_key(number), "no row {number}");
        }
    }

    fn demand_answers(&self, numbers: &[u32]) {
        for number in numbers {
            assert!(self.answers.contains_key(number), "no answer {number}");
        }
    }

    fn demand_situations(&self) {
        for (situation, _) in SITUATIONS {
            assert!(self.situations.contains_key(situation), "never {situation}");
        }
    }
}

const ALL_ROWS: [u32; 10] = [6, 7, 8, 9, 10, 11, 12, 16, 17, 20];

/// Whether something is met in a cache and in what is saved of it.
type IsMet = fn(&[u8], &Saved) -> bool;

/// What a wrong reading of the rules would not tell apart.
const SITUATIONS: &[(&str, IsMet)] = &[
    ("an icon without images left", |cache, saved| {
        let had_images = |record| reader::images(cache, record) > 0;
        let mut icons = saved.icons.iter();
        icons.any(|icon| icon.images.is_empty() && had_images(icon.record))
    }),
    ("a bad image in a directory that went", |cache, saved| {
        let mut rows = saved.rows.iter().filter(|row| row.number == 11);
        rows.any(|row| {
            let index = reader::index_of_image(cache, row.place);
            saved
                .rows
                .iter()
                .any(|other| other.of == Of::Directory(index))
        })
    }),
    ("0xFFFF though all directories went", |cache, saved| {
        let mut rows = saved.rows.iter().filter(|row| row.number == 11);
        let all_went = saved.paths.is_empty() && reader::sizes(cache).unwrap().0 > 0;
        // Its flags are no fault.
        let none = [0xFF, 0xFF, 0];
        all_went && rows.any(|row| cache[row.place..][..3] == none && cache[row.place + 3] < 16)
    }),
    ("a row of 12 behind others of its chain", |_, saved| {
        let mut pairs = saved.rows.windows(2);
        pairs.any(|pair| match (pair[0].of, pair[1].of) {
            (Of::Record { bucket, .. }, Of::Chain { bucket: other, .. }) => {
                pair[1].number == 12 && bucket == other
            }
            _ => false,
        })
    }),
    ("a record that went comes round", |cache, saved| {
        let repeated = saved.rows.iter().filter_map(|row| match row.of {
            Of::Chain { bucket, .. } => reader::repeated_record(cache, bucket),
            _ => None,
        });
        let repeated: HashSet<usize> = repeated.collect();
        saved.rows.iter().any(|row| match row.of {
            Of::Record { record, .. } => row.number != 9 && repeated.contains(&record),
            _ => false,
        })
    }),
    ("a record kept here and foreign there", |_, saved| {
        let kept: HashSet<usize> = saved.icons.iter().map(|icon| icon.record).collect();
        saved.rows.iter().any(|row| match row.of {
            Of::Record { record, .. } => row.number == 9 && kept.contains(&record),
            _ => false,
        })
    }),
    ("a name of one that went, and kept", |cache, saved| {
        let kept: HashSet<&[u8]> = saved.icons.iter().map(|icon| &*icon.name).collect();
        saved.rows.iter().any(|row| match row.of {
            Of::Record { record, .. } if row.number == 10 => {
                kept.contains(reader::name(cache, record))
            }
            _ => false,
        })
    }),
    ("a name and a path cut off", |_, saved| {
        let cut_off = |is_path: bool| {
            let mut rows = saved.rows.iter().filter(|row| row.number == 17);
            rows.any(move |row| matches!(row.of, Of::Directory(_)) == is_path)
        };
        cut_off(true) && cut_off(false)
    }),
    ("rows that are equal", |_, saved| {
        let words: HashSet<_> = saved.rows.iter().map(|r| (r.number, r.place)).collect();
        words.len() < saved.rows.len()
    }),
];

struct Comparison {
    random: Random,
    counts: Counts,
}

impl Comparison {
    fn new(stream: u64) -> Comparison {
        Comparison {
            random: Random::new(SEED, stream),
            counts: Counts::default(),
        }
    }

    /// With exact room, with more, with one less of each, and with none.
    fn compare(&mut self, cache: &[u8]) {
        let both = Both::of(cache);
        let saved = both.saved.as_ref().ok();
        // Of too many icons there is no catalogue.
        let saved = saved.and_then(|saved| Some((saved, saved.catalogue()?.len())));
        let (bytes, words) = match saved {
            Some((saved, length)) => (length, 2 * saved.rows.len()),
            None => (self.random.below(100), self.random.below(10)),
        };
        let more = [self.random.below(30), self.random.below(30)];
        let mut rooms = vec![
            (bytes, words),
            (bytes.saturating_sub(1), words),
            (bytes, words.saturating_sub(1)),
        ];
        if cache.len() < LARGE {
            rooms.extend([(bytes + more[0], words + more[1]), (0, words), (0, 0)]);
            rooms.extend([(bytes, words / 2), (bytes, 0)]);
        }
        for (bytes, words) in rooms {
            let (answer, catalogue, rows) = both.ask(bytes, words);
            *self.counts.answers.entry(answer.number).or_default() += 1;
            if answer.number == 0 {
                demand_account(cache, &catalogue, &rows);
            }
        }
        both.demand_typed();
        if let Some((saved, _)) = saved {
            self.count(cache, saved);
            self.demand_use(cache, saved);
        }
    }

    fn count(&mut self, cache: &[u8], saved: &Saved) {
        for row in &saved.rows {
            *self.counts.rows.entry(row.number).or_default() += 1;
        }
        // Those of few rows are enough.
        for (situation, is_met) in SITUATIONS {
            if saved.rows.len() < 100 && is_met(cache, saved) {
                *self.counts.situations.entry(situation).or_default() += 1;
            }
        }
    }

    /// What is saved is written to a cache that is accepted, and in which each name is
    /// found with its images. That one is saved as it is.
    fn demand_use(&mut self, cache: &[u8], saved: &Saved) {
        let salvaged = icon_cache::salvage(cache).unwrap();
        let catalogue = Catalogue::from_bytes(&salvaged.catalogue).unwrap();
        let buckets = self.random.between(1, 9);
        let written = icon_cache::write(&salvaged.catalogue, buckets).unwrap();
        assert_eq!(check(&written).unwrap().icons, saved.icons.len());
        for icon in &saved.icons {
            let images = lookup(&written, &icon.name).unwrap().images;
            let images: Vec<Vec<u8>> = images.iter().map(image_bytes).collect();
            assert_eq!(images, icon.images);
        }
        let again = icon_cache::salvage(&written).unwrap();
        assert_eq!(again.rows().len(), 0);
        let again = Catalogue::from_bytes(&again.catalogue).unwrap();
        assert_eq!(sorted(again), sorted(catalogue));
        let in_a_row = icon_cache::write(&salvaged.catalogue, 1).unwrap();
        let again = icon_cache::salvage(&in_a_row).unwrap();
        assert!(again.catalogue == salvaged.catalogue);
        demand_all_kept(cache, saved);
    }
}

fn image_bytes(image: &Image) -> Vec<u8> {
    let index = u32::from(image.directory) << 16;
    let words = [index | u32::from(image.flags), image.data_offset];
    generator::numbers(&words)
}

fn sorted(mut catalogue: Catalogue) -> Catalogue {
    catalogue
        .icons
        .sort_by(|one, other| one.name.cmp(&other.name));
    catalogue
}

/// Each time a record is met, the library keeps it or has one row for it. The rows of the
/// paths stand first, one for each directory that went.
fn demand_account(cache: &[u8], catalogue: &[u8], rows: &[(u32, usize)]) {
    let kept = Catalogue::from_bytes(catalogue).unwrap();
    let (directories, _) = reader::sizes(cache).unwrap();
    let (paths, others) = rows.split_at(directories - kept.directories.len());
    assert!(paths.iter().all(|row| matches!(row.0, 6 | 16 | 17)));
    let gone = others
        .iter()
        .filter(|row| matches!(row.0, 8 | 9 | 10 | 17 | 20));
    assert_eq!(kept.icons.len() + gone.count(), meetings(cache));
}

/// Of a cache that is accepted all is kept, but for names that were used before: the
/// others come in the order of the check, with all images.
fn demand_all_kept(cache: &[u8], saved: &Saved) {
    if check(cache).is_err() {
        assert!(!saved.rows.is_empty());
        return;
    }
    assert!(saved.rows.iter().all(|row| row.number == 20));
    let mut names = HashSet::new();
    let mut all = reader::names(cache);
    all.retain(|name| names.insert(*name));
    let kept: Vec<&[u8]> = saved.icons.iter().map(|icon| &*icon.name).collect();
    assert_eq!(kept, all);
    for icon in &saved.icons {
        let images = lookup(cache, &icon.name).unwrap().images;
        let images: Vec<Vec<u8>> = images.iter().map(image_bytes).collect();
        assert_eq!(images, icon.images);
    }
    if let Ok(listed) = icon_cache::catalogue_of(cache) {
        assert!(saved.rows.is_empty());
        let listed = Catalogue::from_bytes(&listed).unwrap();
        let saved = Catalogue::from_bytes(&saved.catalogue().unwrap()).unwrap();
        assert_eq!(sorted(listed), sorted(saved));
    }
}

#[test]
fn sound_and_damaged_buffers() {
    let mut comparison = Comparison::new(20);
    for _ in 0..15_000 {
        let sound = Sound::make(&mut comparison.random);
        comparison.compare(&sound.bytes);
        for _ in 0..6 {
            let kind = comparison.random.below(damage::AT_RANDOM.len());
            let damaged = damage::AT_RANDOM[kind].1(&mut comparison.random, &sound);
            if let Some(bytes) = damaged {
                comparison.compare(&bytes);
            }
        }
        let length = comparison.random.below(sound.bytes.len());
        comparison.compare(&sound.bytes[..length]);
    }
    comparison.counts.print();
    comparison.counts.demand_rows(&ALL_ROWS);
    comparison.counts.demand_answers(&[0, 1, 3, 4, 5, 19]);
}

#[test]
fn tangled_buffers() {
    let mut comparison = Comparison::new(21);
    for _ in 0..200_000 {
        let cache = tangled::make(&mut comparison.random);
        comparison.compare(&cache);
    }
    comparison.counts.print();
    comparison.counts.demand_rows(&ALL_ROWS);
    comparison.counts.demand_answers(&[0, 19]);
    comparison.counts.demand_situations();
}

/// Some bytes of real caches changed.
#[test]
fn real_caches_with_noise() {
    let caches: [&[u8]; 4] = [
        include_bytes!("data/hicolor.cache"),
        include_bytes!("data/Tango.cache"),
        include_bytes!("data/suffixes.cache"),
        include_bytes!("data/notes.cache"),
    ];
    let mut comparison = Comparison::new(25);
    for cache in caches {
        comparison.compare(cache);
        for _ in 0..100 {
            let mut noisy = cache.to_vec();
            for _ in 0..comparison.random.between(1, 2 + cache.len() / 1_000) {
                // Without the header, or little would be left.
                let at = comparison.random.between(12, cache.len() - 1);
                noisy[at] = comparison.random.next() as u8;
            }
            comparison.compare(&noisy);
        }
    }
    comparison.counts.print();
    comparison.counts.demand_rows(&[7, 8, 9, 10, 11, 17]);
}

/// Every field of the farm and of some other caches set to many values, and every chain
/// led to every record.
#[test]
fn buffers_damaged_on_purpose() {
    let mut comparison = Comparison::new(22);
    let farm = Sound::farm();
    let others = (0..3)
        .map(|_| Sound::make(&mut comparison.random))
        .collect::<Vec<_>>();
    for sound in [farm].into_iter().chain(others) {
        let fields = damage::fields(&sound);
        damage::every_field(&sound, &fields, |cache| comparison.compare(cache));
        damage::every_chain_end(&sound, |cache| comparison.compare(cache));
    }
    comparison.counts.print();
    comparison.counts.demand_rows(&ALL_ROWS);
    comparison.counts.demand_answers(&[0, 3, 4, 5, 19]);
}

/// Lead-ins and rounds of many lengths, with a fault on them or beside them.
#[test]
fn looped_buffers() {
    let mut comparison = Comparison::new(23);
    rounds::all(|case| comparison.compare(&case.bytes));
    comparison.counts.print();
    comparison
        .counts
        .demand_rows(&[7, 8, 9, 10, 11, 12, 17, 20]);
}

/// Long chains, many directories, many buckets, the largest buffers, and as many icons as
/// a catalogue can have.
#[test]
fn long_buffers() {
    let mut comparison = Comparison::new(24);
    series::chains(|case| comparison.compare(&case.bytes));
    series::many_directories(|case| comparison.compare(&case.bytes));
    series::many_buckets(|case| comparison.compare(&case.bytes));
    series::largest(|case| comparison.compare(&case.bytes));
    for icons in [65_535, 65_536] {
        comparison.compare(&many(icons));
    }
    comparison.counts.print();
    comparison.counts.demand_rows(&ALL_ROWS);
    comparison.counts.demand_answers(&[0, 2, 4, 19, 21]);
}

/// A cache of so many icons of different names.
fn many(count: usize) -> Vec<u8> {
    let icon = |i| Icon::new(format!("n{i:07}").into_bytes(), Vec::new());
    let icons = (0..count).map(icon).collect();
    let paths = Vec::new();
    catalogues::lay_out(&catalogues::Catalogue { paths, icons }, 4_093)
}
