//! Squeezes a cache by another way than the library: collects what stays, and lays it
//! out with the places of strings and lists in maps.

use super::{chain, check, icon, number, path, tables, Icon, Tables, END};
use std::collections::{HashMap, HashSet};
use std::hash::Hash;

/// Number and place, or the squeezed cache, as `room` bytes let it be.
pub fn squeeze(cache: &[u8], room: usize) -> Result<Vec<u8>, (u32, usize)> {
    let checked = check(cache);
    if checked.number != 0 {
        return Err((checked.number, checked.place));
    }
    let Ok(tables) = tables(cache) else {
        unreachable!("the check accepts it");
    };
    if tables.buckets > 4_096 {
        return Err((25, 4));
    }
    let icons = icons(cache, &tables);
    for (_, icon) in &icons {
        let mut images = (0..icon.images).map(|image| icon.image(image));
        if let Some(image) = images.find(|image| number(cache, image + 4, 4) != 0) {
            return Err((25, image));
        }
    }
    let squeezed = lay_out(cache, &tables, &icons);
    if squeezed.len() > room.min(16_777_216) {
        return Err((19, 0));
    }
    Ok(squeezed)
}

/// All of them, each with its bucket, in the order of the check.
fn icons<'a>(cache: &'a [u8], tables: &Tables) -> Vec<(usize, Icon<'a>)> {
    let mut icons = Vec::new();
    for bucket in 0..tables.buckets {
        for record in chain(cache, tables.bucket_field(bucket)).records {
            let Ok(icon) = icon(cache, tables, bucket, record) else {
                unreachable!("the check accepts it");
            };
            icons.push((bucket, icon));
        }
    }
    icons
}

/// Parts one behind the other, each once.
struct Parts<K> {
    start: usize,
    bytes: Vec<u8>,
    places: HashMap<K, usize>,
}

impl<K: Hash + Eq> Parts<K> {
    fn from(start: usize) -> Self {
        Parts {
            start,
            bytes: Vec::new(),
            places: HashMap::new(),
        }
    }

    fn end(&self) -> usize {
        self.start + self.bytes.len()
    }

    fn place(&mut self, key: K, part: &[u8]) -> usize {
        let end = self.end();
        let bytes = &mut self.bytes;
        *self.places.entry(key).or_insert_with(|| {
            bytes.extend(part);
            end
        })
    }
}

fn lay_out(cache: &[u8], tables: &Tables, icons: &[(usize, Icon)]) -> Vec<u8> {
    let mut met = HashSet::new();
    let kept: Vec<_> = icons
        .iter()
        .filter(|(_, icon)| met.insert(icon.name))
        .collect();
    let records = 16 + 4 * tables.buckets;
    let mut lists = Parts::from(records + 12 * kept.len());
    let list_places = kept.iter().map(|(_, icon)| {
        let list = &cache[icon.image_list..icon.image(icon.images)];
        lists.place(list, list)
    });
    let list_places: Vec<usize> = list_places.collect();
    let directory_list = lists.end();
    let mut strings = Parts::from(directory_list + 4 + 4 * tables.directories);
    let mut string = |text: &[u8]| strings.place(text.to_vec(), &[text, b"\0"].concat());
    let paths = (0..tables.directories).map(|index| {
        let Ok((start, length)) = path(cache, tables, index) else {
            unreachable!("the check accepts it");
        };
        string(&cache[start..][..length])
    });
    let paths: Vec<usize> = paths.collect();
    let names: Vec<usize> = kept.iter().map(|(_, icon)| string(icon.name)).collect();

    // The bucket fields stand before the records, as words.
    let mut words = vec![END; tables.buckets + 3 * kept.len()];
    let mut last = HashMap::new();
    for (i, (bucket, _)) in kept.iter().enumerate() {
        let word = tables.buckets + 3 * i;
        words[last.insert(bucket, word).unwrap_or(*bucket)] = records + 12 * i;
        words[word + 1] = names[i];
        words[word + 2] = list_places[i];
    }
    let numbers = |numbers: &[usize]| -> Vec<u8> {
        numbers
            .iter()
            .flat_map(|&n| (n as u32).to_be_bytes())
            .collect()
    };
    [
        numbers(&[0x0001_0000, 12, directory_list, tables.buckets]),
        numbers(&words),
        lists.bytes,
        numbers(&[tables.directories]),
        numbers(&paths),
        strings.bytes,
    ]
    .concat()
}
