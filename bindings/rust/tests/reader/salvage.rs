//! What can be saved of a cache, by the second reader. Each chain is collected as a
//! whole before its records are judged, and the names kept are remembered in a set.

use super::{
    chain, count, fault, image_allowed, name_of, number, path, string, tables, ChainEnd, Fault,
    Tables,
};
use std::collections::HashSet;

#[derive(Clone, Copy, Debug, PartialEq, Eq)]
pub struct Answer {
    pub number: u32,
    pub place: usize,
    pub length: usize,
    pub rows: usize,
}

/// What a row tells of.
#[derive(Clone, Copy, Debug, PartialEq, Eq)]
pub enum Of {
    /// Its index.
    Directory(usize),
    Record {
        bucket: usize,
        record: usize,
    },
    /// Of a record that is kept, the image of this number from 0 on.
    Image {
        record: usize,
        image: usize,
    },
    /// The end of a bucket's chain, and the record met last on it.
    Chain {
        bucket: usize,
        last: Option<usize>,
    },
}

#[derive(Clone, Copy, Debug, PartialEq, Eq)]
pub struct Row {
    pub number: u32,
    pub place: usize,
    pub of: Of,
}

pub struct Icon {
    pub name: Vec<u8>,
    pub record: usize,
    /// Eight bytes each, with new indexes.
    pub images: Vec<Vec<u8>>,
}

/// All that is saved, and all that went.
pub struct Saved {
    pub paths: Vec<Vec<u8>>,
    pub icons: Vec<Icon>,
    pub rows: Vec<Row>,
}

impl Saved {
    /// The bytes of the catalogue, if its icons can be counted in two bytes.
    pub fn catalogue(&self) -> Option<Vec<u8>> {
        let mut bytes = two(self.paths.len())?.to_vec();
        for path in &self.paths {
            bytes.extend(two(path.len())?);
            bytes.extend(path);
        }
        bytes.extend(two(self.icons.len())?);
        for icon in &self.icons {
            bytes.push(icon.name.len() as u8);
            bytes.extend(&icon.name);
            bytes.extend(two(icon.images.len())?);
            bytes.extend(icon.images.iter().flatten());
        }
        Some(bytes)
    }

    /// The words of the report.
    pub fn report(&self) -> Vec<u32> {
        let words = self.rows.iter().map(|row| [row.number, row.place as u32]);
        words.flatten().collect()
    }
}

fn two(number: usize) -> Option<[u8; 2]> {
    Some(u16::try_from(number).ok()?.to_be_bytes())
}

/// What is saved of a cache whose header and tables are right, or 1 to 5.
pub fn saved(cache: &[u8]) -> Result<Saved, (u32, usize)> {
    let tables = tables(cache).map_err(|fault| (fault.number, fault.place))?;
    let mut saving = Saving {
        cache,
        indexes: Vec::new(),
        names: HashSet::new(),
        saved: Saved {
            paths: Vec::new(),
            icons: Vec::new(),
            rows: Vec::new(),
        },
        tables,
    };
    for index in 0..saving.tables.directories {
        saving.directory(index);
    }
    for bucket in 0..saving.tables.buckets {
        saving.chain(bucket);
    }
    Ok(saving.saved)
}

/// How many records are met on all chains: each is followed to its end, or to the first
/// record whose name is bad or foreign. What is kept and what went is not asked.
pub fn meetings(cache: &[u8]) -> usize {
    let Ok(tables) = tables(cache) else {
        return 0;
    };
    let on_chain = |bucket| {
        let records = chain(cache, tables.bucket_field(bucket)).records;
        let goes_on = |record: &&usize| {
            let name = name_of(cache, **record);
            name.is_ok_and(|name| tables.bucket_of(name) == bucket)
        };
        let passed = records.iter().take_while(goes_on).count();
        records.len().min(passed + 1)
    };
    (0..tables.buckets).map(on_chain).sum()
}

struct Saving<'a> {
    cache: &'a [u8],
    tables: Tables,
    /// By directory, its new index, if it is kept.
    indexes: Vec<Option<usize>>,
    names: HashSet<&'a [u8]>,
    saved: Saved,
}

impl<'a> Saving<'a> {
    fn row(&mut self, fault: Fault, of: Of) {
        self.saved.rows.push(Row {
            number: fault.number,
            place: fault.place,
            of,
        });
    }

    fn directory(&mut self, index: usize) {
        match path(self.cache, &self.tables, index) {
            Ok((start, length)) => {
                self.indexes.push(Some(self.saved.paths.len()));
                let path = &self.cache[start..][..length];
                self.saved.paths.push(path.to_vec());
            }
            Err(fault) => {
                self.indexes.push(None);
                self.row(fault, Of::Directory(index));
            }
        }
    }

    fn chain(&mut self, bucket: usize) {
        let bucket_field = self.tables.bucket_field(bucket);
        let chain = chain(self.cache, bucket_field);
        let last = chain.records.last().copied();
        for record in chain.records {
            if !self.record(bucket, record) {
                return;
            }
        }
        let end = match chain.end {
            ChainEnd::Ended => return,
            ChainEnd::Outside { field } => fault(7, field),
            ChainEnd::Repeats { .. } => fault(12, bucket_field),
        };
        self.row(end, Of::Chain { bucket, last });
    }

    /// Whether the chain goes on behind the record.
    fn record(&mut self, bucket: usize, record: usize) -> bool {
        let of = Of::Record { bucket, record };
        let name = match name_of(self.cache, record) {
            Ok(name) if self.tables.bucket_of(name) == bucket => name,
            Ok(_) => {
                self.row(fault(9, record + 4), of);
                return false;
            }
            Err(refusal) => {
                self.row(fault(refusal, record + 4), of);
                return false;
            }
        };
        let list = number(self.cache, record + 8, 4);
        match count(self.cache, list, 8) {
            Some(images) if images <= 1_024 => {
                if self.names.insert(name) {
                    self.keep(name, record, images);
                } else {
                    self.row(fault(20, record + 4), of);
                }
            }
            _ => self.row(fault(10, record + 8), of),
        }
        true
    }

    fn keep(&mut self, name: &[u8], record: usize, images: usize) {
        let list = number(self.cache, record + 8, 4);
        let mut kept = Vec::new();
        for image in 0..images {
            let place = list + 4 + 8 * image;
            if image_allowed(self.cache, &self.tables, place) {
                kept.extend(self.image(place));
            } else {
                self.row(fault(11, place), Of::Image { record, image });
            }
        }
        self.saved.icons.push(Icon {
            name: name.to_vec(),
            record,
            images: kept,
        });
    }

    /// The image at a place, unless its directory went.
    fn image(&self, place: usize) -> Option<Vec<u8>> {
        let mut image = self.cache[place..][..8].to_vec();
        if self.tables.directories > 0 {
            let index = self.indexes[number(self.cache, place, 2)]?;
            image[..2].copy_from_slice(&two(index)?);
        }
        Some(image)
    }
}

/// Answers, and puts what was saved and the report to the front of what is lent.
pub fn answer(saved: &Saved, catalogue: &mut [u8], report: &mut [u32]) -> Answer {
    let refused = |number| Answer {
        number,
        place: 0,
        length: 0,
        rows: 0,
    };
    let Some(bytes) = saved.catalogue() else {
        return refused(21);
    };
    let words = saved.report();
    if bytes.len() > catalogue.len() || words.len() > report.len() {
        return refused(19);
    }
    catalogue[..bytes.len()].copy_from_slice(&bytes);
    report[..words.len()].copy_from_slice(&words);
    Answer {
        number: 0,
        place: 0,
        length: bytes.len(),
        rows: saved.rows.len(),
    }
}

/// The string that a field names, if it can be read.
pub fn text(cache: &[u8], field: usize, longest: usize) -> Option<&[u8]> {
    string(cache, number(cache, field, 4), longest, 0).ok()
}
