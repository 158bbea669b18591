mod report;

pub use report::{About, Row, Rows};

use crate::catalogue::LARGEST_CATALOGUE;
use crate::{raw, Refusal, LARGEST};

/// What was saved of a cache, and what went.
#[derive(Clone, Debug, PartialEq, Eq)]
pub struct Salvaged<'a> {
    /// The catalogue of what is sound, as bytes. [`Catalogue::from_bytes`] reads it, and
    /// [`write`](crate::write) makes a cache of it.
    ///
    /// [`Catalogue::from_bytes`]: crate::Catalogue::from_bytes
    pub catalogue: Vec<u8>,
    cache: &'a [u8],
    /// Number and place of each row.
    words: Vec<u32>,
}

impl<'a> Salvaged<'a> {
    /// The report: a row for each thing that went, in the order met.
    pub fn rows(&self) -> Rows<'_> {
        Rows::new(self.cache, &self.words)
    }

    /// How many buckets the cache has. It may have more than
    /// [`write`](crate::write) takes.
    pub fn buckets(&self) -> usize {
        report::buckets(self.cache)
    }
}

/// With a row for each directory, for each image of as many icons as are kept, for each
/// record that is met, and for the end of each chain. Records that lie inside are met
/// once at most, but for one on each chain.
const MOST_ROWS: usize = 65_535 + 65_535 * 1_024 + LARGEST + 2 * (LARGEST / 4);

/// Saves what is sound of a damaged cache, as a catalogue, and reports what went.
///
/// Directories whose paths break a rule go, with all images in them, and the indexes of
/// the others close up. Each chain is followed as far as it leads: one that comes round
/// is cut there, and one whose next record leaves the cache, or whose record has a name
/// that breaks a rule, ends there. An icon goes if its image list leaves the cache or is
/// too long, or if its name equals one that was kept before. Of an icon that stays the
/// images go that break a rule; it stays even if none is left. The icons stand in the
/// order in which [`check`](crate::check) meets them.
///
/// [`write`](crate::write) takes the catalogue, unless its cache would be longer than
/// [`LARGEST`] ([`DOES_NOT_FIT`](Refusal::DOES_NOT_FIT)). Of a cache that the check
/// accepts all is kept, but for icons whose name an icon before them has.
///
/// Refused are, in this order, what [`check`](crate::check) refuses before the paths, a
/// header or tables that are no cache's, and more than 65,535 icons kept
/// ([`TOO_MANY_ICONS`](Refusal::TOO_MANY_ICONS)). Since the parts of a cache may be
/// shared, catalogue and report may be much longer than the cache, each up to some
/// hundred MB.
///
/// ```
/// use icon_cache::{check, lookup, salvage, write, About, Refusal, FARM_CACHE};
///
/// // Let the first path lead out of the theme, and the image list of "hen" begin beyond
/// // the end.
/// let mut cache = FARM_CACHE.to_vec();
/// cache[108..110].copy_from_slice(b"..");
/// cache[36..40].copy_from_slice(&200u32.to_be_bytes());
/// assert!(check(&cache).is_err());
///
/// let salvaged = salvage(&cache)?;
/// let rows: Vec<_> = salvaged.rows().collect();
/// assert_eq!((rows[0].number, rows[0].place), (Refusal::BAD_SEGMENT, 100));
/// assert_eq!(rows[0].about, About::Directory { index: 0, path: Some(b"..") });
/// assert_eq!((rows[1].number, rows[1].place), (10, 36));
/// let hen = About::Icon { bucket: 0, record: 28, name: Some(b"hen") };
/// assert_eq!(rows[1].about, hen);
/// assert_eq!(rows.len(), 2);
///
/// // "cow" keeps its image in "64", which is directory 0 now; "oat" has none left.
/// let repaired = write(&salvaged.catalogue, salvaged.buckets())?;
/// assert_eq!(check(&repaired)?.icons, 2);
/// assert_eq!(lookup(&repaired, b"cow")?.images[0].directory, 0);
/// assert!(lookup(&repaired, b"oat")?.images.is_empty());
///
/// // Nothing goes of a sound cache.
/// assert_eq!(salvage(FARM_CACHE)?.rows().len(), 0);
/// # Ok::<(), Refusal>(())
/// ```
pub fn salvage(cache: &[u8]) -> Result<Salvaged<'_>, Refusal> {
    // Where no parts of the cache overlap or are shared, a catalogue is shorter, and the
    // cache has four bytes at least for each row.
    let mut bytes = cache.len();
    let mut words = cache.len() / 2;
    loop {
        let mut catalogue = vec![0; bytes];
        let mut report = vec![0; words];
        let answer = raw::salvage(cache, &mut catalogue, &mut report);
        if answer.number == 0 {
            catalogue.truncate(answer.length);
            catalogue.shrink_to_fit();
            report.truncate(2 * answer.rows);
            report.shrink_to_fit();
            return Ok(Salvaged {
                catalogue,
                cache,
                words: report,
            });
        }
        let room = (bytes, words);
        // Which of them was too short is not said. Each call measures anew, so few are made.
        bytes = LARGEST_CATALOGUE.min(16 * bytes);
        words = (2 * MOST_ROWS).min(16 * words);
        if answer.number != Refusal::DOES_NOT_FIT || (bytes, words) == room {
            return Err(Refusal {
                number: answer.number,
                place: answer.place,
                opened: 0,
            });
        }
    }
}
