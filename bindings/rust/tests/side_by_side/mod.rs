//! Asks the library and the reader the same and compares every part of their
//! answers. The safe functions are asked along with `raw`: they must tell the
//! same in their own words.

// Not every test asks.
#[allow(dead_code)]
mod notes;

use crate::reader;
use icon_cache::{raw, Checked, Found, Image, Picked, Record, Refusal};
use std::fmt::{self, Debug};

/// Words beyond the room on either side, which no call may touch.
const GUARD: usize = 4;

/// Two answers that differ.
pub struct Difference {
    pub call: String,
    pub library: String,
    pub reader: String,
}

impl Debug for Difference {
    fn fmt(&self, f: &mut fmt::Formatter<'_>) -> fmt::Result {
        writeln!(f, "{}", self.call)?;
        writeln!(f, "  library: {}", self.library)?;
        write!(f, "  reader:  {}", self.reader)
    }
}

/// A lookup of the library, raw and safe, and of the reader.
struct LookupCalls {
    what: &'static str,
    raw: fn(&[u8], &[u8], &mut [u32]) -> raw::Lookup,
    reader: fn(&[u8], &[u8], &mut [u32]) -> reader::Lookup,
    safe: fn(&[u8], &[u8]) -> Result<Found, Refusal>,
}

/// One buffer and a copy of it. The library sees the lent buffer and the reader
/// the copy, so that a change to the buffer shows.
pub struct Pair<'a> {
    lent: &'a [u8],
    copy: Vec<u8>,
}

impl<'a> Pair<'a> {
    pub fn new(lent: &'a [u8]) -> Self {
        Pair {
            lent,
            copy: lent.to_vec(),
        }
    }

    pub fn check(&self) -> Result<reader::Check, Difference> {
        let library = check_of(raw::check(self.lent));
        let reader = reader::check(&self.copy);
        self.agree(|| "check".into(), library, reader)?;
        let safe = icon_cache::check(self.lent);
        self.agree(|| "safe check".into(), safe, checked(&reader))?;
        Ok(reader)
    }

    pub fn check_long(&self) -> Result<reader::Check, Difference> {
        let library = check_of(raw::check_long(self.lent));
        let reader = reader::check_long(&self.copy);
        self.agree(|| "long check".into(), library, reader)?;
        let safe = icon_cache::check_long(self.lent);
        self.agree(|| "safe long check".into(), safe, checked(&reader))?;
        Ok(reader)
    }

    /// Looks up `name` with `room` words lent, and gives them after the call.
    pub fn lookup(
        &self,
        name: &[u8],
        room: usize,
    ) -> Result<(reader::Lookup, Vec<u32>), Difference> {
        let calls = LookupCalls {
            what: "lookup",
            raw: raw::lookup,
            reader: reader::lookup,
            safe: icon_cache::lookup,
        };
        self.lookup_by(&calls, name, room)
    }

    /// The same without the hash. Not every test asks.
    #[allow(dead_code)]
    pub fn plain_lookup(
        &self,
        name: &[u8],
        room: usize,
    ) -> Result<(reader::Lookup, Vec<u32>), Difference> {
        let calls = LookupCalls {
            what: "plain lookup",
            raw: raw::plain_lookup,
            reader: reader::plain_lookup,
            safe: icon_cache::plain_lookup,
        };
        self.lookup_by(&calls, name, room)
    }

    fn lookup_by(
        &self,
        calls: &LookupCalls,
        name: &[u8],
        room: usize,
    ) -> Result<(reader::Lookup, Vec<u32>), Difference> {
        let mut words = marked(room + 2 * GUARD);
        let answer = (calls.raw)(self.lent, name, &mut words[GUARD..][..room]);
        let library = reader::Lookup {
            number: answer.number,
            place: answer.place,
            images: answer.images,
            opened: answer.opened,
        };
        let mut expected = marked(room + 2 * GUARD);
        let reader = (calls.reader)(&self.copy, name, &mut expected[GUARD..][..room]);
        let call = || format!("{} {name:02x?} with {room} words", calls.what);
        self.agree(call, library, reader)?;
        let call = || format!("words after {}, {GUARD} more on either side", call());
        self.agree(call, &words, &expected)?;
        let words = expected[GUARD..][..room].to_vec();
        // With 14 the words do not hold the images that the safe call gives.
        if reader.number != 14 {
            let safe = (calls.safe)(self.lent, name);
            let call = || format!("safe {} {name:02x?}", calls.what);
            self.agree(call, safe, found(&reader, &words))?;
        }
        Ok((reader, words))
    }

    pub fn directory(&self, index: usize) -> Result<reader::Directory, Difference> {
        let answer = raw::directory(self.lent, index);
        let library = reader::Directory {
            number: answer.number,
            place: answer.place,
        };
        let reader = reader::directory(&self.copy, index);
        self.agree(|| format!("directory {index}"), library, reader)?;
        Ok(reader)
    }

    pub fn directory_path(&self, index: usize) -> Result<reader::Path, Difference> {
        let answer = raw::directory_path(self.lent, index);
        let library = reader::Path {
            number: answer.number,
            start: answer.start,
            length: answer.length,
        };
        let reader = reader::directory_path(&self.copy, index);
        self.agree(|| format!("path of directory {index}"), library, reader)?;
        let call = || format!("safe directory {index}");
        let place = reader::directory(&self.copy, index).place;
        self.agree(call, self.safe_directory(index), part(&reader, place))?;
        Ok(reader)
    }

    pub fn list(&self, position: reader::Position) -> Result<reader::Step, Difference> {
        let reader::Position { bucket, count } = position;
        let answer = raw::list(self.lent, raw::Position { bucket, count });
        let library = reader::Step {
            number: answer.number,
            place: answer.place,
            record: answer.record,
            position: reader::Position {
                bucket: answer.position.bucket,
                count: answer.position.count,
            },
        };
        let reader = reader::list(&self.copy, position);
        let call = || format!("list from bucket {bucket} with {count} passed");
        self.agree(call, library, reader)?;
        let safe = icon_cache::records_from(self.lent, raw::Position { bucket, count }).next();
        let call = || format!("safe {}", call());
        self.agree(call, safe, self.handed_back(&reader))?;
        Ok(reader)
    }

    /// Picks with these words lent.
    pub fn pick(
        &self,
        name: &[u8],
        size: u32,
        scale: u32,
        directories: &[u32],
    ) -> Result<reader::Pick, Difference> {
        let lent = directories.to_vec();
        let answer = raw::pick(self.lent, name, size, scale, &lent);
        let reader = reader::pick(&self.copy, name, size, scale, directories);
        let call = || format!("pick {name:02x?}, size {size}, scale {scale}, {directories:?}");
        let expected = raw::Pick {
            number: reader.number,
            place: reader.place,
        };
        self.agree(call, answer, expected)?;
        let safe = icon_cache::pick(self.lent, name, size, scale, &lent);
        let call = || format!("safe {}", call());
        self.agree(call, safe, self.picked(&reader))?;
        self.agree(|| format!("words after {}", call()), &*lent, directories)?;
        Ok(reader)
    }

    /// What the safe pick has to give.
    fn picked(&self, answer: &reader::Pick) -> Result<Option<Picked>, Refusal> {
        refused(answer.number, answer.place, 0)?;
        if answer.place == 0 {
            return Ok(None);
        }
        let (directory, flags, data_offset) = reader::image(&self.copy, answer.place);
        Ok(Some(Picked {
            place: answer.place,
            image: Image {
                directory,
                flags,
                data_offset,
            },
        }))
    }

    /// What the iterator over records has to give.
    fn handed_back(&self, step: &reader::Step) -> Option<Result<Record<'_>, Refusal>> {
        if step.number == 28 {
            return None;
        }
        let record = refused(step.number, step.place, 0).map(|()| Record {
            offset: step.record,
            name: reader::name(&self.copy, step.record),
        });
        Some(record)
    }

    /// Where the path given lies in the lent buffer: a copy of it shows.
    fn safe_directory(&self, index: usize) -> Result<(usize, usize), Refusal> {
        let path = icon_cache::directory(self.lent, index)?;
        Ok(self.place_of(path))
    }

    /// Where a string given lies in the lent buffer, and its length.
    fn place_of(&self, string: &[u8]) -> (usize, usize) {
        let start = (string.as_ptr() as usize).wrapping_sub(self.lent.as_ptr() as usize);
        (start, string.len())
    }

    /// The answers are equal, and the call left the buffer as it was.
    fn agree<T: PartialEq + Debug>(
        &self,
        call: impl Fn() -> String,
        library: T,
        reader: T,
    ) -> Result<(), Difference> {
        if library != reader {
            return Err(Difference {
                call: call(),
                library: format!("{library:?}"),
                reader: format!("{reader:?}"),
            });
        }
        if self.lent != self.copy {
            return Err(Difference {
                call: call(),
                library: "changed the cache".into(),
                reader: "left it as it was".into(),
            });
        }
        Ok(())
    }
}

fn check_of(answer: raw::Check) -> reader::Check {
    reader::Check {
        number: answer.number,
        place: answer.place,
        directories: answer.directories,
        icons: answer.icons,
        opened: answer.opened,
        longest: answer.longest,
    }
}

/// What the safe check has to give.
fn checked(answer: &reader::Check) -> Result<Checked, Refusal> {
    let opened = answer.opened;
    refused(answer.number, answer.place, opened)?;
    Ok(Checked {
        directories: answer.directories,
        icons: answer.icons,
        opened,
        longest: answer.longest,
    })
}

/// What the safe lookup has to give.
fn found(answer: &reader::Lookup, words: &[u32]) -> Result<Found, Refusal> {
    let opened = answer.opened;
    refused(answer.number, answer.place, opened)?;
    let words = words[..2 * answer.images].chunks_exact(2);
    let images = words.map(|image| Image {
        directory: (image[0] / 65_536) as u16,
        flags: (image[0] % 65_536) as u16,
        data_offset: image[1],
    });
    Ok(Found {
        record: answer.place,
        images: images.collect(),
        opened,
    })
}

/// What the safe directory call has to give, as a part of the buffer.
fn part(answer: &reader::Path, place: usize) -> Result<(usize, usize), Refusal> {
    refused(answer.number, place, 0)?;
    Ok((answer.start, answer.length))
}

fn refused(number: u32, place: usize, opened: usize) -> Result<(), Refusal> {
    match number {
        0 => Ok(()),
        number => Err(Refusal {
            number,
            place,
            opened,
        }),
    }
}

/// Words that all differ and that no small cache holds.
fn marked(count: usize) -> Vec<u32> {
    (0..count).map(|i| 0xA5A5_0000 + i as u32).collect()
}
